/* acpins, ABI 2: what a DSDT and SSDTs declare, without running any of their code.
 *
 * Two halves. The survey reads every table, and says of each object under which condition it exists and what couldn't be read
 * (acpins_survey_text, acpins_tables). The load refuses a table that has faults or computes at module level, and says of all
 * others exactly the objects (acpins_load, acpins_body, acpins_check, acpins_rewrite). With -Wl,--gc-sections a program has the
 * half alone that it calls.
 *
 * Each call is a function of the tables' bytes and a depth. They keep nothing: no state, no handle, nothing to free. What they
 * find they write as text or as plain records into arrays of the caller; records hold places (indexes into these arrays, from 0)
 * and no pointers, so they may be copied, stored and mapped elsewhere. All memory that a call takes on its way it takes by the
 * three functions of acpins_heap.h, and gives back before it returns.
 *
 * For each call: the tables, the arrays and the outcome don't overlap; nobody writes the tables during the call; a pointer is
 * good for its length, and may be NULL where its length or room is 0. `depth` is the greatest nesting of terms, 1 to 4096: it
 * bounds the stack that the call takes.
 *
 * Compiled for x86-64 with the System V calling convention: pointers and sizes have 64 bits. C11, or C++11. docs/LIBRARY.md has
 * a quick start, the rules and what a call takes. */
#ifndef ACPINS_H
#define ACPINS_H

#include <stddef.h>
#include <stdint.h>

#ifdef __cplusplus
extern "C" {
#endif

/* A whole table, header and all. Table 0 is the DSDT, and SSDTs follow in the order of their load. */
struct acpins_table {
    const uint8_t *bytes; /* its first byte */
    size_t length;        /* in bytes */
};

/* No place: of a link that finds nothing, of the root's parent, of what an object hasn't. */
#define ACPINS_NONE UINT64_MAX

/* How a call ended. */
enum acpins_status {
    ACPINS_OK = 0,
    ACPINS_REFUSED = 1,   /* of a load: a table can't be loaded: the outcome has table, reason and place, and a path's length */
    ACPINS_MEMORY = 2,    /* an allocation failed */
    ACPINS_NO_ROOM = 3,   /* an array is too short: the outcome has the sizes, and no array was written */
    ACPINS_CALL = 4,      /* no table, a depth outside of 1 to 4096, or another number that means nothing */
    ACPINS_NO_METHOD = 5, /* acpins_body: no table declares a method at the path */
    ACPINS_BAD_PATH = 6,  /* acpins_body, acpins_survey_text: the bytes spell no path */
    ACPINS_NO_OBJECT = 7, /* acpins_survey_text: no object may be at the path, or at it and below */
};

/* What is known beside the status. What a status doesn't speak of is 0. */
struct acpins_outcome {
    uint64_t objects; /* OK, NO_ROOM: how many objects there are */
    uint64_t targets; /* .. targets */
    uint64_t text;    /* .. bytes of text; REFUSED: the length in bytes of the path that the refusal names, or 0 */
    uint64_t parts;   /* .. parts of data */
    uint64_t bytes;   /* .. bytes of strings, buffers and names; of acpins_rewrite: bytes of all tables */
    uint64_t table;   /* REFUSED: the table that is refused, from 0 */
    uint64_t reason;  /* REFUSED: a letter and a number, T1-T5, L1-L3, K1-K14 or E1-E6, as 0x4B06 for K6 */
    uint64_t place;   /* REFUSED for a K: offset in bytes from the table's first byte */
};

/* In which form a constant was written (ACPI 6.5, 20.2.3). */
enum acpins_form {
    ACPINS_ZERO = 0,
    ACPINS_ONE = 1,
    ACPINS_ONES = 2,     /* all bits set: 32 of them where the DSDT's revision is below 2, else 64 */
    ACPINS_REVISION = 3, /* what it is only the system that runs the code tells */
    ACPINS_BYTE = 4,
    ACPINS_WORD = 5,
    ACPINS_DWORD = 6,
    ACPINS_QWORD = 7,
    ACPINS_COMPUTED_FORM = 8, /* of a survey: no constant, but a term that only running the code tells */
};

/* A constant, in the form in which it was written. */
struct acpins_constant {
    uint64_t form;  /* enum acpins_form */
    uint64_t value; /* UINT64_MAX of Ones, 0 of Revision and of a term */
};

/* What stands at a path. */
enum acpins_kind {
    ACPINS_ROOT = 0,
    ACPINS_SCOPE = 1,      /* a predefined scope, as \_SB_ (ACPI 6.5, 5.3.1) */
    ACPINS_PREDEFINED = 2, /* a predefined object of which nothing more is known: \_OS_ and \_REV */
    ACPINS_DEVICE = 3,
    ACPINS_PROCESSOR = 4, /* of ACPI 6.3 and before */
    ACPINS_POWER_RESOURCE = 5,
    ACPINS_THERMAL_ZONE = 6,
    ACPINS_NAME = 7,
    ACPINS_METHOD = 8,
    ACPINS_REGION = 9,
    ACPINS_MUTEX = 10,
    ACPINS_EVENT = 11,
    ACPINS_FIELD = 12, /* a unit of a Field, and so on */
    ACPINS_INDEX_FIELD = 13,
    ACPINS_BANK_FIELD = 14,
    ACPINS_CREATE = 15,       /* a Create field of a fixed width, as by CreateDWordField */
    ACPINS_CREATE_FIELD = 16, /* one of any width, by CreateField */
    ACPINS_ALIAS = 17,        /* of a survey: another name for an object, which its link finds */
    ACPINS_TABLE_REGION = 18, /* of a survey: the bytes of a table, by DataTableRegion */
};

/* The address spaces of operation regions (ACPI 6.5, 20.2.5.2, RegionSpace). */
enum acpins_space {
    ACPINS_SYSTEM_MEMORY = 0x00,
    ACPINS_SYSTEM_IO = 0x01,
    ACPINS_PCI_CONFIG = 0x02,
    ACPINS_EMBEDDED_CONTROL = 0x03,
    ACPINS_SMBUS = 0x04,
    ACPINS_SYSTEM_CMOS = 0x05,
    ACPINS_PCI_BAR_TARGET = 0x06,
    ACPINS_IPMI = 0x07,
    ACPINS_GENERAL_PURPOSE_IO = 0x08,
    ACPINS_GENERIC_SERIAL_BUS = 0x09,
    ACPINS_PCC = 0x0A,
    ACPINS_PLATFORM_RT_MECHANISM = 0x0B,
    ACPINS_OEM_SPACE = 0x80, /* the first of those that are left to makers, 80 to FF */
};

/* What is known of an object, by its kind. */
struct acpins_processor {
    uint64_t id;     /* ProcID */
    uint64_t block;  /* PblkAddr: an address in system I/O */
    uint64_t length; /* PblkLen, in bytes */
};
struct acpins_power_resource {
    uint64_t level; /* SystemLevel: the deepest sleep state in which it stays on */
    uint64_t order; /* ResourceOrder */
};
struct acpins_method {
    uint64_t flags; /* MethodFlags: bits 0 to 2 how many arguments, bit 3 serialized, bits 4 to 7 the sync level */
};
struct acpins_region {
    uint64_t space;                /* RegionSpace, 0 to 255: enum acpins_space */
    struct acpins_constant offset; /* RegionOffset, in bytes */
    struct acpins_constant length; /* RegionLen, in bytes */
};
struct acpins_mutex {
    uint64_t flags; /* SyncFlags: bits 0 to 3 the sync level */
};
struct acpins_field {
    uint64_t flags;              /* FieldFlags: bits 0 to 3 the access type, bit 4 the lock rule, bits 5 and 6 the update rule */
    uint64_t offset;             /* in bits from the region's beginning; of an IndexField from that of the register set */
    uint64_t bits;               /* its width, in bits */
    struct acpins_constant bank; /* BankField: the value that selects the bank; else 0, 0 */
};
struct acpins_create {
    uint64_t width;               /* in bits: 1, 8, 16, 32 or 64 */
    struct acpins_constant index; /* where it begins in its source, in bytes; of width 1 in bits */
};
struct acpins_create_field {
    struct acpins_constant index; /* where it begins in its source, in bits */
    struct acpins_constant bits;  /* its width, in bits */
};
struct acpins_buffer {
    struct acpins_constant size; /* BufferSize, in bytes */
    uint64_t length;             /* how many bytes are written down; it may differ from the size */
};
struct acpins_name {
    uint64_t data; /* enum acpins_part_kind: what its data is; `part` has all of it */
    union {
        struct acpins_constant integer; /* Integer */
        uint64_t length;                /* String: its length in bytes */
        struct acpins_buffer buffer;    /* Buffer */
        uint64_t elements;              /* Package: its count, NumElements */
        struct acpins_constant count;   /* VarPackage: its count, VarNumElements */
    };
};

/* An object, 18 numbers. Objects stand in the order of their paths, so those below an object follow it. */
struct acpins_object {
    uint64_t kind;        /* enum acpins_kind */
    uint64_t line;        /* offset of its line in `text`, in bytes; the line begins with its path */
    uint64_t line_length; /* length of the line in bytes, with the line end */
    uint64_t path_length; /* length of the path in bytes */
    uint64_t target;      /* place of the first of its links in `targets` */
    uint64_t targets;     /* how many links it has: the region of a field; index and data register of an index field; region and
                             bank register of a bank field; the source of a Create field */
    union {
        uint64_t numbers[6]; /* by kind; what a kind doesn't use is 0 */
        struct acpins_processor processor;
        struct acpins_power_resource power;
        struct acpins_method method;
        struct acpins_region region;
        struct acpins_mutex mutex;
        struct acpins_field field; /* of a Field, an IndexField, a BankField */
        struct acpins_create create;
        struct acpins_create_field create_field;
        struct acpins_name name;
    };
    uint64_t parent;      /* place of the object that it stands in; ACPINS_NONE of the root */
    uint64_t below;       /* place behind the last object below it: its first child, if any, is the next place */
    uint64_t part;        /* of a Name: place of its data in `parts`; ACPINS_NONE of any other object */
    uint64_t code_table;  /* of a method that a table declares: the table, from 0; else ACPINS_NONE */
    uint64_t code_place;  /* .. offset of its body (TermList) in bytes from the table's first byte; else 0 */
    uint64_t code_length; /* .. length of its body in bytes; else 0 */
};

/* What constant data is. */
enum acpins_part_kind {
    ACPINS_INTEGER = 0,
    ACPINS_STRING = 1,
    ACPINS_BUFFER = 2,
    ACPINS_PACKAGE = 3,
    ACPINS_VAR_PACKAGE = 4,
    ACPINS_REFERENCE = 5, /* the name of an object, in a package; it is not searched */
    ACPINS_COMPUTED = 6,  /* of a survey: a term that only running the code tells; of a Name also data that is lost */
};

/* A part of constant data, 6 numbers. A package stands before its elements. */
struct acpins_part {
    uint64_t kind;                   /* enum acpins_part_kind */
    struct acpins_constant constant; /* Integer: it; Buffer: its size; VarPackage: its count; Package: form Byte, value its count;
                                        else 0, 0. A count or a size may differ from what is written down. */
    uint64_t byte;                   /* String (without its 00), Buffer: offset of its bytes in `bytes`; Reference: of its text
                                        there, as `^FOO_.BAR_`; else 0 */
    uint64_t bytes;                  /* .. how many bytes; else 0 */
    uint64_t behind;                 /* place behind its last element; its elements begin at the next place, and the one
                                        behind element e is parts[e].behind */
};

/* The caller's arrays, and for how many elements each has room. One may be NULL where its room is 0. */
struct acpins_arrays {
    struct acpins_object *objects; /* all objects, in the order of their paths */
    size_t object_room;            /* room for so many objects */
    uint64_t *targets;             /* what links find: places of objects, or ACPINS_NONE */
    size_t target_room;            /* .. targets */
    uint8_t *text;                 /* what `acpins list` prints: a line for each object, and no 00 behind them */
    size_t text_room;              /* .. bytes */
    struct acpins_part *parts;     /* data of Names, in the order of their paths */
    size_t part_room;              /* .. parts */
    uint8_t *bytes;                /* strings, buffers and names of parts */
    size_t byte_room;              /* .. bytes */
};

/* The form of these records, and which calls there are: 2. Calls and records of 1 are as they were. */
#define ACPINS_ABI 2
uint32_t acpins_abi(void);

/* Loads the tables, and writes all objects at the fronts of the arrays. Of a status other than ACPINS_OK the arrays are as they
 * were, but for the path that a refusal for an E names: it stands at the front of `text`, outcome->text bytes long, where there
 * is room for it. To learn the sizes call it with no room. */
uint32_t acpins_load(const struct acpins_table *tables, size_t table_count, uint32_t depth, struct acpins_arrays *arrays,
                     struct acpins_outcome *outcome);

/* How the body of a method is given. */
struct acpins_body {
    uint64_t is_read; /* 1: the text is its statements, as `acpins show` prints them; 0: the text is its bytes as they are */
    uint64_t reason;  /* of is_read 0: why it isn't read, B1 to B13, as 0x4206 for B6; else 0. No call gives S5, 0x5305 */
    uint64_t place;   /* of is_read 0: where, in bytes from the body's first byte; else 0 */
};

/* Writes the body of the method at a path, as `\_SB_.PCI0._STA`, at the front of `text`; outcome->text is its length in
 * bytes. A segment may be short: it is filled with `_`, so that `\_SB.PCI0._STA` is the same path. *body is written where the
 * status is ACPINS_OK or ACPINS_NO_ROOM, so whether the body is read is known without room for its text; of any other status
 * it is as it was. The path that a refusal for an E names stands at the front of `text`, outcome->text bytes long, where there
 * is room for it. */
uint32_t acpins_body(const struct acpins_table *tables, size_t table_count, uint32_t depth, const uint8_t *path,
                     size_t path_length, uint8_t *text, size_t text_room, struct acpins_body *body,
                     struct acpins_outcome *outcome);

/* Whether SSDTs may be loaded in any order over the DSDT (docs/NAMESPACE.md). */
enum acpins_order {
    ACPINS_COMMUTE = 0,   /* every order gives the same objects, links and bodies */
    ACPINS_NOT_ALONE = 1, /* SSDT `first` doesn't load over the DSDT alone */
    ACPINS_SAME = 2,      /* SSDTs `first` and `second` declare one path */
    ACPINS_MISSED = 3,    /* the load of SSDT `first` missed a path that SSDT `second` declares */
};

/* SSDTs are numbered from 1, as tables are. */
struct acpins_verdict {
    uint64_t order;       /* enum acpins_order */
    uint64_t first;       /* NOT_ALONE, SAME, MISSED: an SSDT */
    uint64_t second;      /* SAME, MISSED: another one */
    uint64_t reason;      /* NOT_ALONE: why `first` is refused, as in acpins_outcome */
    uint64_t place;       /* .. where, as in acpins_outcome */
    uint64_t path_length; /* SAME, MISSED, NOT_ALONE for an E: length in bytes of the path at the front of the text */
    uint64_t satisfied;   /* COMMUTE: how many Externals are satisfied */
};

/* An External of one table that another one satisfies: a method of as many arguments stands at its path. */
struct acpins_satisfied {
    uint64_t user;        /* the table with the External, from 0 */
    uint64_t definer;     /* the SSDT that declares the method, from 1 */
    uint64_t path;        /* offset of the path in the text, in bytes */
    uint64_t path_length; /* its length in bytes */
};

/* Writes the verdict on the SSDTs, and where they commute the Externals that are satisfied. *verdict is written where the
 * status is ACPINS_OK or ACPINS_NO_ROOM, so who wants the verdict alone passes no arrays; of any other status it is as it was.
 * For the sizes of the arrays see verdict->satisfied and outcome->text. Of ACPINS_REFUSED the outcome is about the DSDT,
 * table 0: an SSDT that can't be loaded is a verdict. The path that a refusal for an E names stands at the front of `text`,
 * outcome->text bytes long, where there is room for it. */
uint32_t acpins_check(const struct acpins_table *tables, size_t table_count, uint32_t depth, struct acpins_satisfied *satisfied,
                      size_t satisfied_room, uint8_t *text, size_t text_room, struct acpins_verdict *verdict,
                      struct acpins_outcome *outcome);

/* Writes the tables in their shortest spelling, one behind the other, at the front of `bytes`; ends[i] is where table i ends.
 * outcome->bytes is the length of all. `ends` needs table_count places. The path that a refusal for an E names stands at the
 * front of `bytes`, outcome->text bytes long, where there is room for it. */
uint32_t acpins_rewrite(const struct acpins_table *tables, size_t table_count, uint32_t depth, uint8_t *bytes, size_t byte_room,
                        uint64_t *ends, size_t end_room, struct acpins_outcome *outcome);

/* ---- The survey */

/* How many of each a call of the survey has, with ACPINS_OK and ACPINS_NO_ROOM. What a call doesn't speak of is 0. */
struct acpins_survey_outcome {
    uint64_t tables;    /* tables */
    uint64_t entries;   /* entries: those of one path count each */
    uint64_t literals;  /* literals of conditions; equal beginnings count once */
    uint64_t targets;   /* targets of links */
    uint64_t parts;     /* parts of data */
    uint64_t problems;  /* what is lost or refused in the tables */
    uint64_t notes;     /* what is noticed */
    uint64_t text;      /* bytes of text */
    uint64_t bytes;     /* bytes of strings, buffers and names; of acpins_tables: bytes of all tables */
    uint64_t is_faulty; /* acpins_survey_text: 1 where the program would end with status 3: of ACPINS_CHECK where there is an
                           error or a warning, of any other text where there is a problem */
};

/* The forms of a file that holds tables. */
enum acpins_file_form {
    ACPINS_ANY_FORM = 0, /* which of the others it is the bytes tell */
    ACPINS_PLAIN = 1,    /* tables as they stand, one behind another */
    ACPINS_DUMP = 2,     /* the text that acpidump writes: its DSDTs, and behind them its SSDTs */
    ACPINS_HEX = 3,      /* hexadecimal text of tables, with blanks and line ends anywhere */
};

/* Writes the tables in the bytes of a file, one behind the other, at the front of `bytes`; ends[i] is where table i ends.
 * outcome->tables is how many there are, which may be 0, and outcome->bytes the length of all. ACPINS_CALL is the status where
 * the file hasn't the form that is asked for. */
uint32_t acpins_tables(const uint8_t *file, size_t length, uint32_t form, uint8_t *bytes, size_t byte_room, uint64_t *ends,
                       size_t end_room, struct acpins_survey_outcome *outcome);

/* The texts of a survey: what the program acpins-survey prints, without the names of files. */
enum acpins_text {
    ACPINS_LIST = 1,        /* list: a line for each entry with its condition, each problem and each note */
    ACPINS_LIST_BODIES = 2, /* list --bodies: with the objects that methods declare */
    ACPINS_MAP = 3,         /* map: what each byte is */
    ACPINS_BODIES = 4,      /* bodies: which methods are read, and why not */
    ACPINS_SHOW = 5,        /* show: the entries at a path, with the bodies of their methods */
    ACPINS_USES = 6,        /* uses: where objects are used, all or those at a path and below */
    ACPINS_CHECK = 7,       /* check: what is wrong or probably a mistake */
    ACPINS_REPORT = 8,      /* report: an overview for people */
    ACPINS_REPORT_ALL = 9,  /* report -v */
    ACPINS_JSON = 10,       /* json: all of it, for programs */
    ACPINS_HTML = 11,       /* html: the overview as a page */
};

/* Writes a text (enum acpins_text) of tables at the front of `text`, without a 00 behind it. The path is that of ACPINS_SHOW, as
 * `\_SB.PCI0`, and of ACPINS_USES, where its length may be 0; of any other text it isn't looked at. A checker that wants to know
 * alone whether something is wrong passes no room: with ACPINS_NO_ROOM the outcome has the numbers too. */
uint32_t acpins_survey_text(const struct acpins_table *tables, size_t table_count, uint32_t depth, uint32_t what,
                            const uint8_t *path, size_t path_length, uint8_t *text, size_t text_room,
                            struct acpins_survey_outcome *outcome);

/* What one term may declare. Entries stand in the order of their paths, those of one path in the order of the tables. */
struct acpins_entry {
    uint64_t kind;        /* enum acpins_kind */
    uint64_t line;        /* offset of its line in `text`, in bytes; the line begins with its path */
    uint64_t line_length; /* length of the line in bytes, with the line end */
    uint64_t path_length; /* length of the path in bytes */
    uint64_t target;      /* place of the first of its targets in `targets` */
    uint64_t targets;     /* how many targets it has, those of all its links */
    union {
        uint64_t numbers[6]; /* by kind, as of an object; what a kind doesn't use is 0 */
        struct acpins_processor processor;
        struct acpins_power_resource power;
        struct acpins_method method;
        struct acpins_region region;
        struct acpins_mutex mutex;
        struct acpins_field field;
        struct acpins_create create;
        struct acpins_create_field create_field;
        struct acpins_name name;
    };
    uint64_t is_computed; /* bit n: numbers[n] is one that only running the code tells, and 0 or a form; the line has its term */
    uint64_t parent;      /* place of the first entry at the path around; ACPINS_NONE of the root, and where none is there */
    uint64_t part;        /* of a Name: place of its data in `parts`; ACPINS_NONE of any other entry, and of data that is lost */
    uint64_t condition;   /* the last literal of its condition, which has those before it; ACPINS_NONE: it exists in every run */
    uint64_t table;       /* the table in which its term stands, from 0; ACPINS_NONE of a predefined object */
    uint64_t place;       /* offset of the term in bytes from the table's first byte; else 0 */
    uint64_t length;      /* length of the term in bytes; else 0 */
    uint64_t code_place;  /* of a method: offset of its body (TermList) in bytes from the table's first byte; else 0 */
    uint64_t code_length; /* .. length of its body in bytes; else 0 */
};

/* What a link of an entry may find, the innermost first. */
struct acpins_target {
    uint64_t entry;      /* place of the first entry at the path */
    uint64_t link;       /* which link of the entry it is of, from 0, as in the line */
    uint64_t is_certain; /* 1: the link finds the last of its targets, if none before it */
};

/* What a literal of a condition says (docs/SURVEY.md). */
enum acpins_literal_kind {
    ACPINS_IF = 0,    /* if(..): an If takes its first branch */
    ACPINS_NOT = 1,   /* not(..): it doesn't */
    ACPINS_WHILE = 2, /* while(..): a round of a While is begun */
    ACPINS_PAST = 3,  /* past(..): a Return, Break or Continue doesn't stop control */
    ACPINS_HAS = 4,   /* has(..): a scope object is at a path */
    ACPINS_NO = 5,    /* no(..): nothing is at a path */
    ACPINS_NEEDS = 6, /* needs(..): a name is found */
};

/* A literal of conditions. A condition is a literal and all before it; equal beginnings are the same literals. */
struct acpins_literal {
    uint64_t kind;        /* enum acpins_literal_kind */
    uint64_t before;      /* the literal before it; ACPINS_NONE: a condition begins with it */
    uint64_t table;       /* the table in which the If, the While, the stop or the term that asks stands, from 0 */
    uint64_t place;       /* its offset in bytes from the table's first byte */
    uint64_t text;        /* offset of its text in `text`, in bytes */
    uint64_t text_length; /* length of its text in bytes */
};

/* What is lost, refused or noticed in the tables. */
struct acpins_finding {
    uint64_t reason;      /* a letter and a number, as 0x4B06 for K6: acpins_reason_name */
    uint64_t level;       /* 0: a problem, 1: a note */
    uint64_t table;       /* the table in which it stands, from 0 */
    uint64_t place;       /* its offset in bytes from the table's first byte */
    uint64_t lost_from;   /* of a problem: offset of the first byte that is lost; 0 where none is */
    uint64_t lost_to;     /* .. offset behind the last one */
    uint64_t line;        /* offset of its line in `text`, in bytes */
    uint64_t line_length; /* length of the line in bytes, with the line end */
};

/* The caller's arrays, and for how many elements each has room. One may be NULL where its room is 0. */
struct acpins_survey_arrays {
    struct acpins_entry *entries;    /* all entries, in the order of their paths */
    size_t entry_room;               /* room for so many entries */
    struct acpins_target *targets;   /* what links may find */
    size_t target_room;              /* .. targets */
    struct acpins_literal *literals; /* the literals of conditions */
    size_t literal_room;             /* .. literals */
    struct acpins_finding *findings; /* problems and notes, in the order of their lines */
    size_t finding_room;             /* .. problems and notes */
    uint8_t *text;                   /* what `acpins-survey list` prints, and behind it the texts of the literals */
    size_t text_room;                /* .. bytes */
    struct acpins_part *parts;       /* data of Names, in the order of their entries */
    size_t part_room;                /* .. parts */
    uint8_t *bytes;                  /* strings, buffers and names of parts */
    size_t byte_room;                /* .. bytes */
};

/* Surveys the tables, and writes all that is found at the fronts of the arrays. Tables are never refused: what can't be read is
 * a problem among the findings. Of a status other than ACPINS_OK the arrays are as they were. To learn the sizes call it with no
 * room: outcome->problems + outcome->notes is that of `findings`. */
uint32_t acpins_survey(const struct acpins_table *tables, size_t table_count, uint32_t depth, struct acpins_survey_arrays *arrays,
                       struct acpins_survey_outcome *outcome);

/* ---- What needs no call. These functions read the records that acpins_load and acpins_survey wrote, and take no memory. */

/* The name of a reason, as the program prints it: "K6 Computed". "?" of a number that is none. */
static inline const char *acpins_reason_name(uint64_t reason) {
    static const char *const t[] = {"T1 Short", "T2 BadLength", "T3 TooLong", "T4 Cut", "T5 BadSum"};
    static const char *const l[] = {"L1 NotDsdt", "L2 NotSsdt", "L3 Trailing"};
    static const char *const k[] = {"K1 Cut",      "K2 BadOpcode", "K3 ReservedBits", "K4 BadName",    "K5 Overrun",
                                    "K6 Computed", "K7 Alias",     "K8 ModuleIf",     "K9 ModuleCode", "K10 Load",
                                    "K11 NotData", "K12 TooDeep",  "K13 BadString",   "K14 DataRegion"};
    static const char *const e[] = {"E1 EmptyName", "E2 AboveRoot", "E3 Missing", "E4 NoParent", "E5 NotAScope", "E6 Taken"};
    static const char *const b[] = {"B1 Cut",          "B2 BadOpcode", "B3 ReservedBits", "B4 BadName", "B5 Overrun",
                                    "B6 NotStatement", "B7 NotValue",  "B8 NotTarget",    "B9 LeftOut", "B10 BadString",
                                    "B11 TooDeep",     "B12 NotData",  "B13 BadPlace"};
    static const char *const s[] = {"S1 Unsure", "S2 Unknown", "S3 Stray", "S4 StrayElse", "S5 UnsureCount", "S6 Loads"};
    uint64_t number = reason & 0xFF;
    if (number == 0) return "?";
    switch (reason >> 8) {
    case 'T': return number <= sizeof t / sizeof *t ? t[number - 1] : "?";
    case 'L': return number <= sizeof l / sizeof *l ? l[number - 1] : "?";
    case 'K': return number <= sizeof k / sizeof *k ? k[number - 1] : "?";
    case 'E': return number <= sizeof e / sizeof *e ? e[number - 1] : "?";
    case 'B': return number <= sizeof b / sizeof *b ? b[number - 1] : "?";
    case 'S': return number <= sizeof s / sizeof *s ? s[number - 1] : "?"; /* of a survey */
    default: return "?";
    }
}

/* The name of a kind, of a Create field by its width in bits; "?" of none. */
static inline const char *acpins_name_of_kind(uint64_t kind, uint64_t width) {
    static const char *const names[] = {"Root",          "Scope",       "Predefined", "Device",     "Processor",
                                        "PowerResource", "ThermalZone", "Name",       "Method",     "OperationRegion",
                                        "Mutex",         "Event",       "Field",      "IndexField", "BankField"};
    if (kind < sizeof names / sizeof *names) return names[kind];
    if (kind == ACPINS_CREATE_FIELD) return "CreateField";
    if (kind == ACPINS_ALIAS) return "Alias";
    if (kind == ACPINS_TABLE_REGION) return "DataTableRegion";
    if (kind != ACPINS_CREATE) return "?";
    switch (width) {
    case 1: return "CreateBitField";
    case 8: return "CreateByteField";
    case 16: return "CreateWordField";
    case 32: return "CreateDWordField";
    case 64: return "CreateQWordField";
    default: return "?";
    }
}

/* The name of an object's kind, and of an entry's, as its line has it: "Device", "OperationRegion", "CreateDWordField". */
static inline const char *acpins_kind_name(const struct acpins_object *object) {
    return acpins_name_of_kind(object->kind, object->create.width);
}
static inline const char *acpins_entry_kind_name(const struct acpins_entry *entry) {
    return acpins_name_of_kind(entry->kind, entry->create.width);
}

/* The name of an address space, as ASL has it: "SystemMemory". "OEM" of 80 to FF, and "?" of what ACPI 6.5 keeps for later. */
static inline const char *acpins_space_name(uint64_t space) {
    static const char *const names[] = {
        "SystemMemory", "SystemIO", "PCI_Config",       "EmbeddedControl",  "SMBus", "SystemCMOS",
        "PciBarTarget", "IPMI",     "GeneralPurposeIO", "GenericSerialBus", "PCC",   "PlatformRtMechanism"};
    if (space < sizeof names / sizeof *names) return names[space];
    return space >= ACPINS_OEM_SPACE && space <= 0xFF ? "OEM" : "?";
}

/* How the whole path of an object compares with one that may have short segments: below 0, 0 or above 0. What spells no path is
 * equal to none. */
static inline int acpins_compare(const uint8_t *whole, size_t whole_length, const uint8_t *path, size_t path_length) {
    size_t next = 0; /* of `path` */
    for (size_t at = 0; at < whole_length; at++) {
        /* segments begin at 1, 6, 11, ..; the second to fourth character of one may be left out for `_` */
        int may_fill = at % 5 >= 2;
        uint8_t want;
        if (may_fill && (next == path_length || path[next] == '.')) want = '_';
        else if (next == path_length) return 1;
        else want = path[next++];
        if (whole[at] != want) return whole[at] < want ? -1 : 1;
    }
    return next < path_length ? -1 : 0;
}

/* The place of the object at a path, as `\_SB_.PCI0` or `\_SB.PCI0`; ACPINS_NONE where there is none. It looks at some 2 + log2
 * of the objects. */
static inline uint64_t acpins_find(const struct acpins_object *objects, uint64_t count, const uint8_t *text, const uint8_t *path,
                                   size_t path_length) {
    uint64_t low = 0, high = count;
    while (low < high) {
        uint64_t middle = low + (high - low) / 2;
        int order = acpins_compare(text + objects[middle].line, (size_t)objects[middle].path_length, path, path_length);
        if (order == 0) return middle;
        if (order < 0) low = middle + 1;
        else high = middle;
    }
    return ACPINS_NONE;
}

/* The place of the first object right below the one at `place`; ACPINS_NONE where there is none. */
static inline uint64_t acpins_first_child(const struct acpins_object *objects, uint64_t place) {
    return place + 1 < objects[place].below ? place + 1 : ACPINS_NONE;
}

/* The place of the next object with the same parent; ACPINS_NONE where there is none. */
static inline uint64_t acpins_next_sibling(const struct acpins_object *objects, uint64_t place) {
    uint64_t parent = objects[place].parent, next = objects[place].below;
    return parent != ACPINS_NONE && next < objects[parent].below ? next : ACPINS_NONE;
}

/* The place of the object that the one at `place` stands in; ACPINS_NONE of the root. */
static inline uint64_t acpins_parent(const struct acpins_object *objects, uint64_t place) { return objects[place].parent; }

/* The place of the first entry at a path, as `\_SB_.PCI0` or `\_SB.PCI0`; ACPINS_NONE where there is none. Others of the same
 * path follow it. */
static inline uint64_t acpins_find_entry(const struct acpins_entry *entries, uint64_t count, const uint8_t *text,
                                         const uint8_t *path, size_t path_length) {
    uint64_t low = 0, high = count;
    while (low < high) {
        uint64_t middle = low + (high - low) / 2;
        const struct acpins_entry *it = &entries[middle];
        if (acpins_compare(text + it->line, (size_t)it->path_length, path, path_length) < 0) low = middle + 1;
        else high = middle;
    }
    if (low == count) return ACPINS_NONE;
    const struct acpins_entry *found = &entries[low];
    return acpins_compare(text + found->line, (size_t)found->path_length, path, path_length) == 0 ? low : ACPINS_NONE;
}

/* The place of the first entry right below another one, with a name of four characters, as `_HID`; ACPINS_NONE where there is
 * none. Entries below follow it. */
static inline uint64_t acpins_entry_below(const struct acpins_entry *entries, uint64_t count, const uint8_t *text, uint64_t place,
                                          const char *name) {
    uint64_t length = entries[place].path_length, more = length == 1 ? 4 : 5; /* below the root without a dot */
    for (uint64_t at = place + 1; at < count && entries[at].path_length >= length; at++) {
        const uint8_t *path = text + entries[at].line;
        uint64_t i = 0;
        while (i < length && path[i] == text[entries[place].line + i]) i++;
        if (i < length) break;
        if (entries[at].path_length != length + more) continue;
        for (i = 0; i < 4 && path[length + more - 4 + i] == (uint8_t)name[i]; i++) continue;
        if (i == 4) return at;
    }
    return ACPINS_NONE;
}

/* Writes the seven characters of an EISA id and a 00, as `PNP0A03` of 0x030AD041 (ACPI 6.5, 6.1.5). 0 of a number that is none:
 * then the text is empty. */
static inline int acpins_eisa_name(uint64_t number, char text[8]) {
    static const char digits[] = "0123456789ABCDEF";
    uint32_t n = (uint32_t)number;
    uint32_t swapped = n << 24 | (n & 0xFF00) << 8 | (n >> 8 & 0xFF00) | n >> 24;
    text[0] = 0;
    if (number > 0xFFFFFFFF || swapped >> 31) return 0;
    for (int i = 0; i < 3; i++) {
        uint32_t letter = swapped >> (26 - 5 * i) & 31;
        if (letter < 1 || letter > 26) return text[0] = 0;
        text[i] = (char)('@' + letter);
    }
    for (int i = 0; i < 4; i++) text[3 + i] = digits[swapped >> (12 - 4 * i) & 15];
    text[7] = 0;
    return 1;
}

/* What a resource descriptor is of (ACPI 6.5, 6.4). */
enum acpins_resource_kind {
    ACPINS_RESOURCE_OTHER = 0,  /* `tag` says what */
    ACPINS_RESOURCE_IRQ = 1,    /* `base` is the first interrupt, `size` how many there are */
    ACPINS_RESOURCE_DMA = 2,    /* `base` is a mask of channels */
    ACPINS_RESOURCE_IO = 3,     /* `size` ports from `base` on, the lowest place of a movable one */
    ACPINS_RESOURCE_MEMORY = 4, /* `size` bytes from `base` on, the lowest place of a movable one */
    ACPINS_RESOURCE_BUS = 5,    /* `size` bus numbers from `base` on */
};

struct acpins_resource {
    uint64_t kind;   /* enum acpins_resource_kind */
    uint64_t tag;    /* of a small item its type, 0 to 15; of a large one 0x80 and its type */
    uint64_t place;  /* offset of the descriptor in the buffer, in bytes */
    uint64_t length; /* its length in bytes */
    uint64_t base;   /* by kind; else 0 */
    uint64_t size;   /* .. */
};

static inline uint64_t acpins_little(const uint8_t *bytes, size_t count) {
    uint64_t number = 0;
    while (count > 0) number = number << 8 | bytes[--count];
    return number;
}

/* What an address space descriptor with numbers of so many bytes says: `at` is where its type stands. */
static inline void acpins_address_space(struct acpins_resource *it, const uint8_t *at, size_t room, size_t width,
                                        size_t skipped) {
    static const uint8_t kinds[] = {ACPINS_RESOURCE_MEMORY, ACPINS_RESOURCE_IO, ACPINS_RESOURCE_BUS};
    size_t numbers = 3 + skipped; /* granularity, first, last, translation, size */
    if (room < numbers + 5 * width || at[0] > 2) return;
    it->kind = kinds[at[0]];
    it->base = acpins_little(at + numbers + width, width);
    it->size = acpins_little(at + numbers + 4 * width, width);
}

/* The resource descriptor at an offset of a buffer, as that of a _CRS; *place goes on to the next one. 0 where there is none
 * more: at the End Tag, at the buffer's end, and where a descriptor is cut. */
static inline int acpins_next_resource(const uint8_t *bytes, size_t length, size_t *place, struct acpins_resource *it) {
    if (*place >= length) return 0;
    const uint8_t *at = bytes + *place;
    size_t left = length - *place, is_large = at[0] >> 7;
    if (is_large && left < 3) return 0;
    size_t head = is_large ? 3 : 1, holds = is_large ? at[1] | (size_t)at[2] << 8 : at[0] & 7u;
    if (left < head + holds || (!is_large && at[0] >> 3 == 15)) return 0;
    const uint8_t *in = at + head;
    it->kind = ACPINS_RESOURCE_OTHER;
    it->base = it->size = 0;
    it->tag = is_large ? at[0] : at[0] >> 3;
    it->place = *place;
    it->length = head + holds;
    *place += head + holds;
    switch (it->tag) {
    case 0x04: /* IRQ */
        if (holds < 2) break;
        for (uint64_t mask = acpins_little(in, 2); mask != 0; mask &= mask - 1) it->size++;
        for (it->base = 0; it->base < 15 && !(acpins_little(in, 2) >> it->base & 1);) it->base++;
        it->kind = ACPINS_RESOURCE_IRQ;
        break;
    case 0x05: /* DMA */
        if (holds < 1) break;
        it->kind = ACPINS_RESOURCE_DMA;
        it->base = in[0];
        break;
    case 0x08: /* I/O port */
        if (holds < 7) break;
        it->kind = ACPINS_RESOURCE_IO;
        it->base = acpins_little(in + 1, 2);
        it->size = in[6];
        break;
    case 0x09: /* fixed I/O port */
        if (holds < 3) break;
        it->kind = ACPINS_RESOURCE_IO;
        it->base = acpins_little(in, 2) & 0x3FF;
        it->size = in[2];
        break;
    case 0x81: /* 24-bit memory: bits 23 to 8 */
        if (holds < 9) break;
        it->kind = ACPINS_RESOURCE_MEMORY;
        it->base = acpins_little(in + 1, 2) << 8;
        it->size = acpins_little(in + 7, 2) << 8;
        break;
    case 0x85: /* 32-bit memory */
        if (holds < 17) break;
        it->kind = ACPINS_RESOURCE_MEMORY;
        it->base = acpins_little(in + 1, 4);
        it->size = acpins_little(in + 13, 4);
        break;
    case 0x86: /* fixed 32-bit memory */
        if (holds < 9) break;
        it->kind = ACPINS_RESOURCE_MEMORY;
        it->base = acpins_little(in + 1, 4);
        it->size = acpins_little(in + 5, 4);
        break;
    case 0x87: acpins_address_space(it, in, holds, 4, 0); break;
    case 0x88: acpins_address_space(it, in, holds, 2, 0); break;
    case 0x8A: acpins_address_space(it, in, holds, 8, 0); break;
    case 0x8B: acpins_address_space(it, in, holds, 8, 2); break;
    case 0x89: /* extended interrupt */
        if (holds < 6 || in[1] == 0) break;
        it->kind = ACPINS_RESOURCE_IRQ;
        it->base = acpins_little(in + 2, 4);
        it->size = in[1];
        break;
    default: break;
    }
    return 1;
}

#ifdef __cplusplus
}
#endif
#endif
