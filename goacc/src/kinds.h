/* The kinds of maps as GCC 12.2 passes them, the low eight bits of a map's 16, and the clauses that they come from.
   They were found by compiling small programs and printing what these pass. */
#ifndef LWA_KINDS_H
#define LWA_KINDS_H

enum {
    KIND_CREATE = 0x00,
    KIND_COPYIN = 0x01,             /* also firstprivate; device of update with if_present */
    KIND_COPYOUT = 0x02,            /* also self of update with if_present */
    KIND_COPY = 0x03,
    KIND_POINTER = 0x04,            /* of the kernel's own, or of update: no item */
    KIND_DESCRIPTOR = 0x05,         /* of Fortran: copyin or delete, with the pointer that it begins with */
    KIND_PRESENT = 0x06,
    KIND_DELETE_ALL = 0x07,         /* delete with finalize */
    KIND_DEVICE_POINTER = 0x08,     /* deviceptr */
    KIND_RESIDENT = 0x09,           /* device_resident of declare */
    KIND_NO_CREATE = 0x0b,
    KIND_USE_DEVICE = 0x0e,
    KIND_EMPTY = 0x0f,              /* a section of length 0 */
    KIND_USE_DEVICE_IF_PRESENT = 0x10,
    KIND_DELETE = 0x17,
    KIND_MEMBERS = 0x1c,            /* members follow, as many as its size says: each is an item of its own */
    KIND_MEMBER_POINTER = 0x1d,     /* no item */
    KIND_EMPTY_DELETE_ALL = 0x1f,   /* a section of length 0, with finalize */
    KIND_ATTACH = 0x50,             /* its size is the distance from the pointer's value; behind the section that the */
    KIND_DETACH = 0x51,             /* pointer points to it is that item's */
    KIND_NEW_CREATE = 0x80,
    KIND_UPDATE_DEVICE = 0x81,      /* also copyin */
    KIND_UPDATE_SELF = 0x82,        /* also copyout, of exit data with finalize */
    KIND_COPY_SCALAR = 0x83,        /* a variable that no clause names */
    KIND_DETACH_ALL = 0xd1          /* detach with finalize */
};

#endif
