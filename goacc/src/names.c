/*
 * The program's own words for what it passes: the variable that has some bytes, and the line of a call. Both are read
 * from the symbols and the DWARF data of the program and its libraries, by libdw of elfutils where that was there when
 * this library was built. Without it there are none, and addresses stand for both.
 */
#define _GNU_SOURCE
#include "inner.h"

#ifndef LWA_LIBDW

bool lwa_line_of(const void *from, char text[LWA_NAME])
{
    (void)from;
    text[0] = '\0';
    return false;
}

bool lwa_variable_at(uintptr_t at, size_t len, char text[LWA_NAME])
{
    (void)at;
    (void)len;
    text[0] = '\0';
    return false;
}

bool lwa_object_at(uintptr_t at, uintptr_t *from, size_t *len, char name[LWA_NAME])
{
    (void)at, (void)from, (void)len;
    name[0] = '\0';
    return false;
}

const void *lwa_keep_variable(uintptr_t at, size_t *element)
{
    (void)at;
    *element = LWA_POINTER;
    return NULL;
}

bool lwa_section_of(const void *variable, uintptr_t at, size_t len, char text[LWA_NAME])
{
    (void)variable, (void)at, (void)len;
    text[0] = '\0';
    return false;
}

#else
#include <dlfcn.h>
#include <dwarf.h>
#include <elfutils/libdw.h>
#include <elfutils/libdwfl.h>
#include <stdio.h>
#include <stdlib.h>
#include <string.h>
#include <unistd.h>
#include <unwind.h>

/* ---- The program's files ---- */

/* No file beside the program's own is looked for, and no server is asked. */
static int find_no_file(Dwfl_Module *module, void **data, const char *name, Dwarf_Addr base, const char *file,
                        const char *link, GElf_Word sum, char **found)
{
    (void)module, (void)data, (void)name, (void)base, (void)file, (void)link, (void)sum, (void)found;
    return -1;
}

/* The program or library that has an address, by that of its first byte: libdw does not know of pages of no file, in
   which variables lie that begin as zero. What was loaded since the last look is found by another one. */
static Dwfl_Module *module_of(uintptr_t at)
{
    static const Dwfl_Callbacks callbacks = {.find_elf = dwfl_linux_proc_find_elf, .find_debuginfo = find_no_file};
    static Dwfl *process;
    Dwfl_Module *found;
    Dl_info info;

    if (dladdr((void *)at, &info) == 0 || (process == NULL && (process = dwfl_begin(&callbacks)) == NULL)) {
        return NULL;
    }
    found = dwfl_addrmodule(process, (uintptr_t)info.dli_fbase);
    if (found == NULL) {
        dwfl_report_begin(process);
        dwfl_linux_proc_report(process, getpid());
        dwfl_report_end(process, NULL, NULL);
        found = dwfl_addrmodule(process, (uintptr_t)info.dli_fbase);
    }
    return found;
}

/* The line before the address to which the call returns, in a file as the compiler was given it. */
static void find_line(const void *from, char text[LWA_NAME])
{
    Dwfl_Module *module = from != NULL ? module_of((uintptr_t)from) : NULL;
    Dwfl_Line *line = module != NULL ? dwfl_module_getsrc(module, (uintptr_t)from - 1) : NULL;
    const char *file = NULL, *folder = NULL;
    int number = 0;

    text[0] = '\0';
    if (line != NULL) {
        file = dwfl_lineinfo(line, NULL, &number, NULL, NULL, NULL);
        folder = dwfl_line_comp_dir(line);
    }
    if (file == NULL || number == 0) {
        return;
    }
    if (folder != NULL && strncmp(file, folder, strlen(folder)) == 0 && file[strlen(folder)] == '/') {
        file += strlen(folder) + 1;
    }
    snprintf(text, LWA_NAME, "%s:%d", file, number);
}

bool lwa_line_of(const void *from, char text[LWA_NAME])
{
    static const void *last;
    static char found[LWA_NAME];

    if (from != last) {
        last = from;
        find_line(from, found);
    }
    memcpy(text, found, LWA_NAME);
    return text[0] != '\0';
}

/* ---- Variables ---- */

/* A variable: where it lies, and its type where that is known. */
typedef struct variable {
    uintptr_t at;
    size_t len;
    char name[LWA_NAME / 2];
    bool has_type;
    Dwarf_Die type;
} variable;

/* Its name in the program, or else its symbol without a version. */
static void set_name(variable *v, const char *name, const char *symbol)
{
    if (name == NULL) {
        name = symbol;
    }
    snprintf(v->name, sizeof v->name, "%.*s", (int)strcspn(name, "@"), name);
}

static bool type_of(Dwarf_Die *die, Dwarf_Die *type)
{
    Dwarf_Attribute attribute;

    return dwarf_attr_integrate(die, DW_AT_type, &attribute) != NULL && dwarf_formref_die(&attribute, type) != NULL
        && dwarf_peel_type(type, type) == 0;
}

/* Whether an entry is of a variable that lies at an address of its file. */
static bool is_at(Dwarf_Die *die, Dwarf_Addr at)
{
    Dwarf_Attribute attribute;
    Dwarf_Op *words;
    size_t count;

    return dwarf_tag(die) == DW_TAG_variable && dwarf_attr(die, DW_AT_location, &attribute) != NULL
        && dwarf_getlocation(&attribute, &words, &count) == 0 && count == 1 && words[0].atom == DW_OP_addr
        && words[0].number == at;
}

/* The entry of such a variable in another one: a file, a function, a block in it, a namespace. */
static bool find_entry(Dwarf_Die *in, Dwarf_Addr at, Dwarf_Die *found)
{
    Dwarf_Die next;

    for (int is_done = dwarf_child(in, &next); is_done == 0; is_done = dwarf_siblingof(&next, &next)) {
        const int tag = dwarf_tag(&next);

        if (is_at(&next, at)) {
            *found = next;
            return true;
        }
        if ((tag == DW_TAG_subprogram || tag == DW_TAG_lexical_block || tag == DW_TAG_namespace || tag == DW_TAG_module)
            && find_entry(&next, at, found)) {
            return true;
        }
    }
    return false;
}

static bool read_variable(Dwfl_Module *module, uintptr_t at, variable *v)
{
    GElf_Off offset;
    GElf_Sym symbol;
    const char *name = dwfl_module_addrinfo(module, at, &offset, &symbol, NULL, NULL, NULL);
    Dwarf_Die *file = NULL, entry;
    Dwarf_Addr bias = 0;
    bool has_entry = false;

    if (name == NULL || GELF_ST_TYPE(symbol.st_info) != STT_OBJECT || offset >= symbol.st_size) {
        return false;
    }
    *v = (variable){.at = at - offset, .len = symbol.st_size};
    while (!has_entry && (file = dwfl_module_nextcu(module, file, &bias)) != NULL) {
        has_entry = find_entry(file, v->at - bias, &entry);
    }
    v->has_type = has_entry && type_of(&entry, &v->type);
    set_name(v, has_entry ? dwarf_diename(&entry) : NULL, name);
    return true;
}

/* The function whose frame on this thread's stack has an address. cfa: the address behind the frame. */
typedef struct frame {
    uintptr_t at, ip, cfa;
} frame;

/* The unwinder tells of each function where it goes on, and the address behind the frame of what it has called. */
static _Unwind_Reason_Code look_at(struct _Unwind_Context *function, void *sought)
{
    frame *f = sought;

    f->cfa = _Unwind_GetCFA(function);
    if (f->cfa > f->at) {
        return _URC_END_OF_STACK;
    }
    f->ip = _Unwind_GetIP(function);
    return _URC_NO_REASON;
}

/* Whether an entry is of a variable in a frame that has an address. */
static bool is_in_frame(Dwarf_Die *die, const frame *f, Dwarf_Addr ip, variable *v)
{
    Dwarf_Attribute attribute;
    Dwarf_Op *words;
    Dwarf_Word len;
    size_t count;

    if ((dwarf_tag(die) != DW_TAG_variable && dwarf_tag(die) != DW_TAG_formal_parameter)
        || dwarf_attr_integrate(die, DW_AT_location, &attribute) == NULL
        || dwarf_getlocation_addr(&attribute, ip, &words, &count, 1) != 1 || count != 1
        || words[0].atom != DW_OP_fbreg || !type_of(die, &v->type) || dwarf_aggregate_size(&v->type, &len) != 0) {
        return false;
    }
    v->at = f->cfa + words[0].number;
    v->len = len;
    v->has_type = true;
    set_name(v, dwarf_diename(die), "");
    return f->at - v->at < v->len;
}

/* A variable on this thread's stack. */
static bool read_local(uintptr_t at, variable *v)
{
    frame f = {.at = at};
    Dwfl_Module *module;
    Dwarf_Addr bias = 0;
    Dwarf_Die *file = NULL, *scopes = NULL, next;
    bool is_found = false;

    /* Behind the end of the program a frame of this library may lie where one of the program's lay. */
    _Unwind_Backtrace(look_at, &f);
    module = f.ip != 0 && f.cfa > at ? module_of(f.ip) : NULL;
    if (module != NULL && module != module_of((uintptr_t)&lwa_line_of)) {
        file = dwfl_module_addrdie(module, f.ip - 1, &bias);
    }
    for (int i = 0, count = file != NULL ? dwarf_getscopes(file, f.ip - 1 - bias, &scopes) : 0; i < count; i++) {
        for (int is_done = dwarf_child(&scopes[i], &next); is_done == 0 && !is_found;
             is_done = dwarf_siblingof(&next, &next)) {
            is_found = is_in_frame(&next, &f, f.ip - 1 - bias, v);
        }
    }
    free(scopes);
    return is_found;
}

/* The variable that has a byte. One that is not on the stack is read once. */
static const variable *variable_at(uintptr_t at)
{
    static variable local;
    static variable *known;
    static size_t count, room;
    Dwfl_Module *module;
    variable read;

    for (size_t i = 0; i < count; i++) {
        if (at - known[i].at < known[i].len) {
            return &known[i];
        }
    }
    module = module_of(at);
    if (module == NULL) {
        return read_local(at, &local) ? &local : NULL;
    }
    if (!read_variable(module, at, &read)) {
        return NULL;
    }
    known = lwa_grown(known, count, &room, sizeof *known);
    known[count] = read;
    return &known[count++];
}

/* ---- Sections of variables ---- */

static void add(char text[LWA_NAME], const char *format, ...) __attribute__((format(printf, 2, 3)));
static void add(char text[LWA_NAME], const char *format, ...)
{
    const size_t used = strlen(text);
    va_list words;

    va_start(words, format);
    vsnprintf(text + used, LWA_NAME - used, format, words);
    va_end(words);
}

/* The first dimension of an array. stride: how many bytes lie between two of its elements, or 0. */
typedef struct dimension {
    size_t stride;
    Dwarf_Sword first; /* the number of its first element */
    bool is_fortran;   /* which counts from 1 where the program says nothing else */
    bool has_more;     /* there are further ones */
} dimension;

/* In Fortran the first of several is not the one whose elements lie furthest apart. */
static dimension dimension_of(Dwarf_Die *array)
{
    dimension d = {.stride = 0};
    Dwarf_Die unit, entry, next;
    Dwarf_Attribute attribute;
    Dwarf_Word size = 0;
    Dwarf_Sword last = 0;

    if (dwarf_diecu(array, &unit, NULL, NULL) == NULL || dwarf_aggregate_size(array, &size) != 0
        || dwarf_child(array, &entry) != 0 || dwarf_attr(&entry, DW_AT_upper_bound, &attribute) == NULL
        || dwarf_formsdata(&attribute, &last) != 0) {
        return d;
    }
    dwarf_default_lower_bound(dwarf_srclang(&unit), &d.first);
    d.is_fortran = d.first == 1;
    if (dwarf_attr(&entry, DW_AT_lower_bound, &attribute) != NULL) {
        dwarf_formsdata(&attribute, &d.first);
    }
    d.has_more = dwarf_siblingof(&entry, &next) == 0;
    d.stride = last < d.first || (d.has_more && d.is_fortran) ? 0 : size / (size_t)(last - d.first + 1);
    return d;
}

static void add_elements(char text[LWA_NAME], const dimension *d, size_t from, size_t count)
{
    if (d->is_fortran) {
        add(text, "(%ld:%ld)", d->first + (long)from, d->first + (long)(from + count) - 1);
    } else {
        add(text, "[%zu:%zu]", from, count);
    }
}

/* Goes into the member that has a section; no: none has. */
static bool go_into_member(Dwarf_Die *type, size_t *offset, size_t len, char text[LWA_NAME])
{
    Dwarf_Die member, inner;
    Dwarf_Attribute attribute;
    Dwarf_Word place, size;

    for (int is_done = dwarf_child(type, &member); is_done == 0; is_done = dwarf_siblingof(&member, &member)) {
        if (dwarf_attr(&member, DW_AT_data_member_location, &attribute) != NULL
            && dwarf_formudata(&attribute, &place) == 0 && type_of(&member, &inner)
            && dwarf_aggregate_size(&inner, &size) == 0 && *offset >= place && *offset + len <= place + size) {
            add(text, ".%s", dwarf_diename(&member) != NULL ? dwarf_diename(&member) : "");
            *offset -= place;
            *type = inner;
            return true;
        }
    }
    return false;
}

/* Goes into the element that has a section; no: it is of several elements, which are told, or the type has none. */
static bool go_into_element(Dwarf_Die *type, size_t *offset, size_t len, char text[LWA_NAME])
{
    const dimension d = dimension_of(type);
    Dwarf_Die inner;

    if (d.stride != 0 && *offset % d.stride == 0 && len % d.stride == 0) {
        add_elements(text, &d, *offset / d.stride, len / d.stride);
        *offset = 0;
    } else if (d.stride != 0 && *offset % d.stride + len <= d.stride && !d.has_more && type_of(type, &inner)) {
        add(text, d.is_fortran ? "(%ld)" : "[%ld]", d.first + (long)(*offset / d.stride));
        *offset %= d.stride;
        *type = inner;
        return true;
    }
    return false;
}

/* The section of a type's bytes: its elements or its member where it is of such, else how far it lies behind them. */
static void add_section(Dwarf_Die type, size_t offset, size_t len, char text[LWA_NAME])
{
    Dwarf_Word size = 0;
    bool is_in = true;

    while (is_in) {
        switch (dwarf_tag(&type)) {
        case DW_TAG_array_type:
            is_in = go_into_element(&type, &offset, len, text);
            break;
        case DW_TAG_structure_type:
        case DW_TAG_class_type:
            is_in = (dwarf_aggregate_size(&type, &size) != 0 || offset != 0 || len != size)
                 && go_into_member(&type, &offset, len, text);
            break;
        default:
            is_in = false;
        }
    }
    if (offset != 0) {
        add(text, " + %zu bytes", offset);
    }
}

bool lwa_section_of(const void *kept, uintptr_t at, size_t len, char text[LWA_NAME])
{
    const variable *v = kept;

    text[0] = '\0';
    if (v == NULL) {
        return false;
    }
    add(text, "%s", v->name);
    if (v->has_type) {
        add_section(v->type, at - v->at, len, text);
    } else if (at != v->at) {
        add(text, " + %zu bytes", (size_t)(at - v->at));
    }
    return true;
}

bool lwa_variable_at(uintptr_t at, size_t len, char text[LWA_NAME])
{
    return lwa_section_of(variable_at(at), at, len, text);
}

/* The bytes of an element of the array, or of the first member, that a byte of a type is in; or those of a pointer. */
static size_t element_of(Dwarf_Die type, size_t offset)
{
    char text[LWA_NAME] = "";
    Dwarf_Word size = 0;

    while (dwarf_tag(&type) == DW_TAG_structure_type || dwarf_tag(&type) == DW_TAG_class_type) {
        if (!go_into_member(&type, &offset, 1, text)) {
            return LWA_POINTER;
        }
    }
    if (dwarf_tag(&type) == DW_TAG_array_type) {
        size = dimension_of(&type).stride;
    } else if (dwarf_tag(&type) == DW_TAG_base_type) {
        dwarf_aggregate_size(&type, &size);
    }
    return size != 0 ? size : LWA_POINTER;
}

const void *lwa_keep_variable(uintptr_t at, size_t *element)
{
    const variable *v = variable_at(at);

    *element = v != NULL && v->has_type ? element_of(v->type, at - v->at) : LWA_POINTER;
    return v != NULL ? memcpy(lwa_memory(NULL, sizeof *v), v, sizeof *v) : NULL;
}

bool lwa_object_at(uintptr_t at, uintptr_t *from, size_t *len, char name[LWA_NAME])
{
    const variable *v = variable_at(at);

    if (v != NULL) {
        *from = v->at;
        *len = v->len;
        snprintf(name, LWA_NAME, "%s", v->name);
    }
    return v != NULL;
}
#endif
