"""One page to look at a surface in a browser: what is pointed at, and a slider of the pruning percent."""

from hilldale_lab.view.page import view_page

__all__ = ["view_page"]
