/* export-for-tests FILE MODULE OUT: loads a file by Gwyddion and saves its first channel by one of Gwyddion's modules, so
 * that the tests have files that Gwyddion itself wrote.
 *
 * Copyright 2026 Rialdwop maintainers
 * This program is free software: you can redistribute it and/or modify it under the terms of the GNU General Public
 * License as published by the Free Software Foundation, either version 2 of the License, or (at your option) any later
 * version. It comes without any warranty.
 */
#include <stdio.h>
#include <libgwyddion/gwyddion.h>
#include <libprocess/gwyprocess.h>
#include <libgwymodule/gwymodule.h>
#include <app/gwyapp.h>

int main(int count, char **words)
{
    if (count != 4) {
        fputs("usage: export-for-tests FILE MODULE OUT\n", stderr);
        return 2;
    }
    gwy_threads_set_enabled(FALSE);
    gwy_widgets_type_init();
    gwy_undo_set_enabled(FALSE);
    gwy_app_data_browser_set_gui_enabled(FALSE);
    gwy_app_settings_load("/nonexistent", NULL);
    gchar *modules = gwy_find_self_dir("modules");
    const gchar *folders[] = { g_build_filename(modules, "file", NULL), NULL };
    gwy_module_register_modules(folders);
    GError *error = NULL;
    const char *module = gwy_file_detect(words[1], FALSE, GWY_FILE_OPERATION_LOAD);
    GwyContainer *data = module ? gwy_file_func_run_load(module, words[1], GWY_RUN_NONINTERACTIVE, &error) : NULL;
    if (!data) {
        fprintf(stderr, "not loaded: %s\n", error ? error->message : "no module");
        return 3;
    }
    gwy_app_data_browser_add(data);
    gwy_app_data_browser_select_data_field(data, 0);
    gboolean saves = gwy_file_func_get_operations(words[2]) & GWY_FILE_OPERATION_SAVE;
    gboolean done = saves ? gwy_file_func_run_save(words[2], data, words[3], GWY_RUN_NONINTERACTIVE, &error)
                          : gwy_file_func_run_export(words[2], data, words[3], GWY_RUN_NONINTERACTIVE, &error);
    if (!done) {
        fprintf(stderr, "not saved: %s\n", error ? error->message : "refused");
        return 6;
    }
    return 0;
}
