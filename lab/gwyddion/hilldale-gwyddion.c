/* hilldale-gwyddion FILE OUT: the channels of any file that Gwyddion loads, as plain numbers.
 *
 * Copyright 2026 Rialdwop maintainers
 * This program is free software: you can redistribute it and/or modify it under the terms of the GNU General Public
 * License as published by the Free Software Foundation, either version 2 of the License, or (at your option) any later
 * version. It comes without any warranty. It is linked to Gwyddion's libraries, which are under the same licence; the
 * rest of hilldale is not linked to it, but calls it as a program of its own.
 *
 * OUT holds the line "hilldale-gwyddion 1"; two texts that a byte of 0 ends, Gwyddion's module and its version; the
 * number of channels; and for each channel three texts, its title, the unit of its lengths and of its values, then its
 * columns and profiles, its whole lengths, its values, and a byte for each that is 1 where it is masked. Numbers are
 * little endian: uint32, and floats of 64 bits. The status is 0, 2 for wrong words, 3 for a file that Gwyddion refuses,
 * and 6 for an output that fails.
 */
#include <stdio.h>
#include <string.h>
#include <libgwyddion/gwyddion.h>
#include <libprocess/gwyprocess.h>
#include <libgwymodule/gwymodule.h>
#include <app/gwyapp.h>

enum { MOST_CHANNELS = 1024 };

static void put_text(FILE *out, const char *text)
{
    fwrite(text, 1, strlen(text) + 1, out);
}

static void put_whole(FILE *out, guint32 number)
{
    guint32 little = GUINT32_TO_LE(number);
    fwrite(&little, sizeof little, 1, out);
}

static void put_float(FILE *out, double number)
{
    guint64 bits;
    memcpy(&bits, &number, sizeof bits);
    bits = GUINT64_TO_LE(bits);
    fwrite(&bits, sizeof bits, 1, out);
}

static void put_unit(FILE *out, GwySIUnit *unit)
{
    gchar *text = gwy_si_unit_get_string(unit, GWY_SI_UNIT_FORMAT_PLAIN);
    put_text(out, text);
    g_free(text);
}

static GwyDataField *field_of(GwyContainer *data, int id)
{
    GwyDataField *field = NULL;
    gwy_container_gis_object(data, gwy_app_get_data_key_for_id(id), (GObject **)&field);
    return field;
}

static void put_channel(FILE *out, GwyContainer *data, int id)
{
    GwyDataField *field = field_of(data, id), *mask = NULL;
    const guchar *title = (const guchar *)"";
    gwy_container_gis_object(data, gwy_app_get_mask_key_for_id(id), (GObject **)&mask);
    gwy_container_gis_string(data, gwy_app_get_data_title_key_for_id(id), &title);
    int columns = gwy_data_field_get_xres(field), profiles = gwy_data_field_get_yres(field), count = columns * profiles;
    put_text(out, (const char *)title);
    put_unit(out, gwy_data_field_get_si_unit_xy(field));
    put_unit(out, gwy_data_field_get_si_unit_z(field));
    put_whole(out, columns);
    put_whole(out, profiles);
    put_float(out, gwy_data_field_get_xreal(field));
    put_float(out, gwy_data_field_get_yreal(field));
    const double *values = gwy_data_field_get_data_const(field);
    const double *masked = mask ? gwy_data_field_get_data_const(mask) : NULL;
    for (int i = 0; i < count; i++)
        put_float(out, values[i]);
    for (int i = 0; i < count; i++)
        fputc(masked && masked[i] > 0, out);
}

static GwyContainer *load(const char *file, const char **module)
{
    GError *error = NULL;
    *module = gwy_file_detect(file, FALSE, GWY_FILE_OPERATION_LOAD);
    if (!*module) {
        fputs("no module of Gwyddion knows the file\n", stderr);
        return NULL;
    }
    GwyContainer *data = gwy_file_func_run_load(*module, file, GWY_RUN_NONINTERACTIVE, &error);
    if (!data)
        fprintf(stderr, "%s: %s\n", *module, error ? error->message : "refused");
    return data;
}

static void start_gwyddion(void)
{
    gwy_threads_set_enabled(FALSE);
    gwy_widgets_type_init();
    gwy_undo_set_enabled(FALSE);
    gwy_app_data_browser_set_gui_enabled(FALSE);
    gchar *modules = gwy_find_self_dir("modules");
    const gchar *folders[] = { g_build_filename(modules, "file", NULL), NULL };
    gwy_module_register_modules(folders);
}

int main(int count, char **words)
{
    if (count != 3) {
        fputs("usage: hilldale-gwyddion FILE OUT\n", stderr);
        return 2;
    }
    start_gwyddion();
    const char *module;
    GwyContainer *data = load(words[1], &module);
    if (!data)
        return 3;
    int channels = 0;
    for (int id = 0; id < MOST_CHANNELS; id++)
        channels += field_of(data, id) != NULL;
    if (!channels) {
        fputs("the file has no channel with a table of values\n", stderr);
        return 3;
    }
    FILE *out = fopen(words[2], "wb");
    if (!out) {
        perror(words[2]);
        return 6;
    }
    fputs("hilldale-gwyddion 1\n", out);
    put_text(out, module);
    put_text(out, gwy_version_string());
    put_whole(out, channels);
    for (int id = 0; id < MOST_CHANNELS; id++)
        if (field_of(data, id))
            put_channel(out, data, id);
    if (ferror(out) | fclose(out)) {
        perror(words[2]);
        return 6;
    }
    return 0;
}
