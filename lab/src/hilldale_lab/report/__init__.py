"""A report of a surface that is handed over: one file that stands alone, and beside it what it is checked by."""

from hilldale_lab.report.make import made_report
from hilldale_lab.report.page import report_page

__all__ = ["made_report", "report_page"]
