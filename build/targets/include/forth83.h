/* The proved Forth-83 machine in a host's own process. docs/EMBEDDING.md says what is promised, and what a host must do.
 *
 * The host owns all bytes. A machine is a record of the host's, of plain bytes: copy it to undo, or write it to a file to go on
 * another day. No call keeps a pointer, and nothing is global: calls on different records may come from different threads.
 *
 * A call works in the record itself: no other thread may read or write it meanwhile. A call that is refused leaves every byte as it was.
 *
 * Sizes have 64 bits on every target, also where size_t has 32. */
#ifndef FORTH83_H
#define FORTH83_H
#include <stddef.h>
#include <stdint.h>

#ifdef __cplusplus
extern "C" {
#endif

/* The version of the library, as the file data/VERSION has it. */
#define FORTH83_VERSION "2.0.0"

/* The layout of the records below; each record that was loaded has it as `abi`. */
#define FORTH83_ABI 3

/* Room for what is shown in which everything fits, in bytes. Any less is enough, too (4,096 is good): the host then shows long pieces
 * from memory by itself. */
#define FORTH83_ROOM 131072

/* Room for the longest reply that forth83_serve gives to a request that moves the machine: at most 2,047 bytes in as many frames, 65,536
 * bytes that the last tick shows, in 32 frames, and the frame at the end. */
#define FORTH83_SERVE_ROOM 73830

/* How many bytes a block has. */
#define FORTH83_PAGE 1024

/* What a call answers: done, or why it did nothing. */
enum forth83_status {
  FORTH83_DONE = 0,
  FORTH83_NO_MACHINE = 1,     /* the record keeps no machine */
  FORTH83_OUT_OF_MEMORY = 2,  /* only forth83_see, _headers, _extent, _trace_line, _survey, _text, _screens, _unpack, _pack, _guess_format, _judge and _advise, which take memory */
  FORTH83_SHORT_ROOM = 3,     /* no room for what is shown, or too little for a file */
  FORTH83_TRUNCATED = 4,      /* an image's file that ends too soon */
  FORTH83_TRAILING_BYTES = 5, /* bytes after an image's file */
  FORTH83_BAD_MAGIC = 6,      /* no image's file */
  FORTH83_BAD_VERSION = 7,    /* an image's file of another version */
  FORTH83_BAD_BUFFERS = 8,    /* a number of buffers below 2 or above 16 */
  FORTH83_BAD_SIZE = 9,       /* a size that doesn't fit */
  FORTH83_HALTED = 10,        /* the machine is halted */
  FORTH83_WAITING = 11,       /* the machine waits for an answer, or for a word that was called */
  FORTH83_NOT_ASKED = 12,     /* what was answered isn't asked */
  FORTH83_BAD_PAGE = 13,      /* the page isn't of FORTH83_PAGE bytes */
  FORTH83_STACK = 14,         /* the stack is full, or empty */
  FORTH83_NOT_FOUND = 15,     /* no word has that name */
  FORTH83_CHAIN_TOO_LONG = 16, /* more than 32,768 headers in a chain, and the name isn't among these; or in all, for a list of all */
  FORTH83_NOT_COLON = 17,      /* the word is no colon definition */
  FORTH83_NOT_STRUCTURED = 18, /* SEE: what the word compiled is the thread of no text */
  FORTH83_NAMELESS = 19,       /* SEE: it uses a word without a name that can be read */
  FORTH83_SHADOWED = 20,       /* SEE: a name in its text would mean another word, or a number is a name */
  FORTH83_BAD_TEXT = 21,       /* SEE: a text in it has a quote */
  FORTH83_LONG_REPLY = 22,     /* the reply is longer than the room, which has the front of it; the request was obeyed */
  FORTH83_REFUSED = 23         /* forth83_screens, _unpack, _pack and _advise: what was given is refused; `cause` or `said` says why, if there is one */
};

/* What is wrong with a line of a text of screens (docs/PROGRAM.md, "Screens as text"). */
enum forth83_cause {
  FORTH83_BAD_ESCAPE = 1,   /* after %~ a ~ without two digits, 0 to 9 and A to F */
  FORTH83_LONG_LINE = 2,    /* more than 64 bytes */
  FORTH83_FULL_SCREEN = 3,  /* the seventeenth line of a screen */
  FORTH83_BAD_HEADING = 4,  /* one % at its beginning, and no heading */
  FORTH83_LATE_HEADING = 5, /* a heading after lines without one */
  FORTH83_NAMED_TWICE = 6,  /* a second heading with this number */
  FORTH83_NO_SCREEN = 7,    /* it would begin screen 65,536 */
  FORTH83_BAD_BYTE = 256    /* from here on: a byte that is no text, 256 and the byte */
};

/* Why forth83_run ended. */
enum forth83_stop {
  FORTH83_STOP_HALTED = 0, /* the machine is halted: `halts` says why */
  FORTH83_STOP_LIMIT = 1,  /* all ticks that were allowed are done */
  FORTH83_STOP_ROOM = 2,   /* of FORTH83_ROOM bytes or more, fewer than 65,536 are left; of less room, none is */
  FORTH83_STOP_TYPED = 3,  /* a key is asked and no byte is left, or a line and no whole line is: call again with more */
  FORTH83_STOP_BLOCK = 4,  /* a block is asked: `asks` and `asked` say which */
  FORTH83_STOP_SPAN = 5,   /* `len` bytes of memory from `at` on are shown next, and do not fit: show them, and call again */
  FORTH83_STOP_LINE = 6,   /* the same bytes, and a blank after them */
  FORTH83_STOP_RETURNED = 7 /* the word that forth83_call called has returned */
};

/* What a machine asks. */
enum forth83_asks {
  FORTH83_ASKS_NOTHING = 0,
  FORTH83_ASKS_KEY = 1,
  FORTH83_ASKS_LINE = 2,  /* of at most `asked` bytes */
  FORTH83_ASKS_READ = 3,  /* the bytes of block `asked` */
  FORTH83_ASKS_WRITE = 4  /* that the bytes of block `asked` be kept */
};

/* Why a machine halted. */
enum forth83_halts {
  FORTH83_RUNS = 0,
  FORTH83_BYE = 1,
  FORTH83_INPUT_ENDED = 2,
  FORTH83_INPUT_FAULT = 3,
  FORTH83_FAULT = 4 /* `fault`, which nothing in the image handles */
};

/* The dialect that is to be loaded before old screens. */
enum forth83_dialect {
  FORTH83_NO_DIALECT = 0, /* none is needed, or none is known */
  FORTH83_FIG = 1,        /* fig-FORTH */
  FORTH83_F79 = 2,        /* Forth-79 */
  FORTH83_F83 = 3,        /* F83 */
  FORTH83_POLY = 4        /* polyFORTH */
};

/* A block buffer. */
typedef struct forth83_buffer {
  uint16_t slot;      /* its slot, from 0 on */
  uint16_t has_block; /* 1 where it has a block */
  uint16_t block;     /* that block */
  uint16_t updated;   /* 1 where the block was updated since it was read or written */
} forth83_buffer;

/* The faults that a machine met since it was loaded, whether its image handled them or not. */
typedef struct forth83_faults {
  uint16_t count; /* how many, modulo 65,536 */
  uint16_t last;  /* the last of them; 0 where there is none */
  uint16_t ip;    /* the machine's `ip` when the tick or the answer that met it began: where the word is that met it */
} forth83_faults;

/* Where a machine was when a word was called: its fields of the same names. `line` has the two cells that a line needs. */
typedef struct forth83_aside {
  uint16_t ip;
  uint16_t has_pending;
  uint16_t pending;
  uint16_t asks; /* no block */
  uint16_t asked;
  uint16_t token;
  uint16_t line[2];
  uint16_t returns_top;
  uint16_t returns[257];
} forth83_aside;

/* A machine. A host may read each field; what it writes must be such as a machine has, else calls refuse it. */
typedef struct forth83 {
  uint32_t abi;
  uint32_t block_count; /* how many blocks its device has */
  uint16_t ip;          /* the address of the next token in the thread */
  uint16_t has_pending; /* 1 where another token comes next */
  uint16_t pending;     /* the address of that token */
  uint16_t asks;        /* enum forth83_asks */
  uint16_t asked;
  uint16_t token;       /* the token that asks */
  uint16_t halts;       /* enum forth83_halts */
  uint16_t fault;
  uint16_t values_top;  /* the data stack is values[values_top] to values[255], the top first */
  uint16_t returns_top; /* the return stack, likewise */
  uint16_t buffer_count;
  forth83_buffer buffers[16]; /* the most recently referenced first */
  uint16_t values[257];
  uint16_t returns[257];
  uint8_t memory[65536];
  uint8_t spare[16]; /* for the calls, which work in memory as it lies here; no part of the machine */
  forth83_faults faults;
  uint16_t is_called; /* 1 from forth83_call to forth83_resume, also if the word has returned or met a fault */
  forth83_aside aside;
} forth83;

/* How a call of forth83_run ended. */
typedef struct forth83_end {
  uint64_t read;  /* how many typed bytes were read */
  uint64_t shown; /* how many bytes are shown */
  uint64_t left;  /* how many ticks of the limit are left */
  uint32_t stop;  /* enum forth83_stop */
  uint16_t at;    /* where the bytes are that do not fit, which go on at address 0 after the end of memory */
  uint16_t len;   /* how many they are; 0 after any other stop */
} forth83_end;

/* A compiler with another layout of these records stops here. */
#ifdef __cplusplus
#define FORTH83_MUST(what) static_assert(what, #what)
#define FORTH83_AS(type, x) static_cast<type>(x)
#else
#define FORTH83_MUST(what) _Static_assert(what, #what)
#define FORTH83_AS(type, x) ((type)(x))
#endif
FORTH83_MUST(sizeof(forth83) == 67280 && offsetof(forth83, buffers) == 30 && offsetof(forth83, memory) == 1186);
FORTH83_MUST(offsetof(forth83, faults) == 66738 && offsetof(forth83, aside) == 66746);
FORTH83_MUST(sizeof(forth83_end) == 32 && offsetof(forth83_end, stop) == 24);

/* The layout of the library that is linked. */
uint32_t forth83_abi(void);

/* The name in the library has the layout in it, so that a host of another layout does not link. */
#define forth83_load forth83_load_3

/* Loads an image, of which these are the bytes of the file, for a device of block_count blocks. They are copied into the record, so
 * they may lie in flash, and need not be kept. */
uint32_t forth83_load(const uint8_t *image, uint64_t image_size, uint32_t block_count, forth83 *machine);

/* Goes on with the machine: by the typed bytes, for at most limit ticks, up to where the host is needed. With room for FORTH83_ROOM
 * bytes or more, all that is shown is put into `shown`. With less, but 1 at least, a longer piece of memory may come after that:
 * forth83_take_span gives it. */
uint32_t forth83_run(forth83 *machine, const uint8_t *typed, uint64_t typed_size, uint8_t *shown, uint64_t shown_size,
                     uint64_t limit, forth83_end *end);

/* Answers to FORTH83_STOP_BLOCK: a block's bytes; that its bytes are kept, which forth83_page gives; that this failed. */
uint32_t forth83_read(forth83 *machine, const uint8_t *page, uint64_t page_size);
uint32_t forth83_page(const forth83 *machine, uint8_t *page, uint64_t page_size);
uint32_t forth83_written(forth83 *machine);
uint32_t forth83_failed(forth83 *machine);

/* Answers to FORTH83_STOP_TYPED: nothing is typed any more. The machine halts. */
uint32_t forth83_ended(forth83 *machine);

/* Puts the compilation address of the word that a name means into word, as FIND does: CONTEXT's vocabulary is searched, and then
 * FORTH. The name is its bytes: lower case is not upper case. Nothing in the machine is changed, whatever it asks. */
uint32_t forth83_find(const forth83 *machine, const uint8_t *name, uint64_t name_size, uint16_t *word);

/* Puts the view cell of the word that a name means into block: the number of the block in which the word was made. */
uint32_t forth83_view(const forth83 *machine, const uint8_t *name, uint64_t name_size, uint16_t *block);

/* Puts the addresses of the link fields of all headers of all vocabularies into list, ascending, and how many they are into count; list_size
 * is how many list has room for. Two bytes before a link field is the word's view cell, and after it are the byte with the length of
 * the name (its low five bits), the name and the code field. */
uint32_t forth83_headers(const forth83 *machine, uint16_t *list, uint64_t list_size, uint64_t *count);

/* Puts where the thread of the colon word that a name means begins into from, and where it ends into end: what DEBUG traces. */
uint32_t forth83_extent(const forth83 *machine, const uint8_t *name, uint64_t name_size, uint16_t *from, uint16_t *end);

/* Puts SEE's text of the colon word that a name means into text, and its size into size: `: NAME .. ;` in one line. */
uint32_t forth83_see(const forth83 *machine, const uint8_t *name, uint64_t name_size, uint8_t *text, uint64_t text_size, uint64_t *size);

/* Puts DEBUG's line of the tick that comes next into text, and its size into size: where the token is, its name, and both stacks. With 4,096
 * bytes of room each line fits. */
uint32_t forth83_trace_line(const forth83 *machine, uint8_t *text, uint64_t text_size, uint64_t *size);

/* Puts a report on old screens into text, and its size into size: which of them are source, which dialect they were written for and why, and
 * which words the Forth of this machine does not know. The screens are those of a file of blocks of this name; a last block may be short. Puts
 * the dialect that is to be loaded before them into dialect (enum forth83_dialect), the best one if it is undecided. A report on
 * 64 screens has some 4,000 bytes; FORTH83_SHORT_ROOM says that it has more than text_size. */
uint32_t forth83_survey(const forth83 *machine, const uint8_t *name, uint64_t name_size, const uint8_t *blocks, uint64_t blocks_size,
                        uint8_t *text, uint64_t text_size, uint64_t *size, uint16_t *dialect);

/* Puts a screen of FORTH83_PAGE bytes as text into text, and its size into size: a line `% screen 21` with its number, and its lines. Each
 * screen fits into 3,200 bytes. Needs no machine. */
uint32_t forth83_text(uint16_t number, const uint8_t *page, uint64_t page_size, uint8_t *text, uint64_t text_size, uint64_t *size);

/* Reads a text of screens: puts their numbers into numbers, their bytes into pages, FORTH83_PAGE for each, and how many they are into count. A text
 * has at most one screen more than a sixteenth of its lines, or than it has headings. FORTH83_REFUSED: line has the first line at fault, counted
 * from 1, and cause what is wrong with it (enum forth83_cause); nothing is in numbers and pages. Needs no machine. */
uint32_t forth83_screens(const uint8_t *text, uint64_t text_size, uint16_t *numbers, uint64_t numbers_size, uint8_t *pages, uint64_t pages_size,
                         uint64_t *count, uint64_t *line, uint16_t *cause);

/* Reads a container of another system: a disk, a file of blocks, lines or a listing. Puts its blocks into blocks, how many bytes they have into
 * size, the number of the first one into first, and what is to be said of them into said, which may be nothing: a sentence without its
 * full stop, cut where the room ends (512 bytes are enough). The options are words with blanks between them, those of `forth83 import`, as in
 * "--format rx01 --half"; docs/OLD-SOURCES.md has them. FORTH83_REFUSED: said has why, and nothing is in blocks. FORTH83_SHORT_ROOM: size says how
 * many bytes blocks must have. Needs no machine. */
uint32_t forth83_unpack(const uint8_t *options, uint64_t options_size, const uint8_t *container, uint64_t container_size, uint8_t *blocks,
                        uint64_t blocks_size, uint64_t *size, uint16_t *first, uint8_t *said, uint64_t said_size, uint64_t *said_count);

/* Writes blocks back into a container that was read with the same options: into its own bytes, and only where screens are. The first of
 * these blocks is that with number 0. Texts and records are not written. said is as above. */
uint32_t forth83_pack(const uint8_t *options, uint64_t options_size, const uint8_t *blocks, uint64_t blocks_size, uint8_t *container,
                      uint64_t container_size, uint8_t *said, uint64_t said_size, uint64_t *said_count);

/* Puts the name of the format that a container may have into said, by its size, its head and its first lines. */
uint32_t forth83_guess_format(const uint8_t *container, uint64_t container_size, uint8_t *said, uint64_t said_size, uint64_t *said_count);

/* Judges the next lesson of what a pupil wrote, as `forth83 judge` does, with the checkers of a course: puts its line into line, and its size into
 * size; size is 0 if no lesson is left. A line has six parts with tabs between them, and ends with a new line: the lesson's number, its screen and
 * its title; right, wrong, missing, endless or empty; the word that this is about, if there is one; and a sentence. The image is one that has loaded
 * the checkers (`1 LOAD` of the course), texts is data/faults.txt, and course and pupil are blocks: bytes after the last whole one are ignored.
 * A run of a lesson, of which there are at most two, takes at most so many ticks (FORTH83_JUDGE_TICKS is what `./forth class` gives it), and may show
 * 1,000,000 bytes. next and stopped say how far the judging is: set both to 0 before the first lesson, and leave them as they are between two calls.
 * After three lessons that a limit had to stop, the others get a tenth of the ticks. FORTH83_SHORT_ROOM: size says how many bytes line must have;
 * 4,096 are enough unless a program shows longer lines. Needs no machine. Takes from malloc the bytes of the course once more, some 300 KB, and at
 * most 4 MB for what a program shows. */
#define FORTH83_JUDGE_TICKS 5000000
uint32_t forth83_judge(const uint8_t *image, uint64_t image_size, const uint8_t *texts, uint64_t texts_size, const uint8_t *course,
                       uint64_t course_size, const uint8_t *pupil, uint64_t pupil_size, uint64_t ticks, uint16_t *next, uint16_t *stopped,
                       uint8_t *line, uint64_t line_size, uint64_t *size);

/* Puts what is said of a case into reply, and its size into written: what a fault means and what was probably meant, with its number, or what is said
 * of EXIT in a counted loop, which may be nothing. A case is a text of lines, as in "fault 13\nword SQAURE\nname SQUARE\n"; docs/FORMATS.md has them.
 * FORTH83_REFUSED: the text is no case. FORTH83_SHORT_ROOM: written says how many bytes reply must have. Needs no machine. */
uint32_t forth83_advise(const uint8_t *case_text, uint64_t case_size, uint8_t *reply, uint64_t reply_size, uint64_t *written);

/* Obeys a request of a host, as a server does: the frame of this kind with these bytes (docs/FORMATS.md has the frames). Puts the frames of the reply
 * into reply, and how many bytes they have into replied. A reply that is longer than reply_size is cut there (FORTH83_LONG_REPLY): the request was
 * obeyed all the same, so give requests that move the machine FORTH83_SERVE_ROOM bytes, and ask again for what only looks. No block is
 * answered here: load the image for 65,536 blocks, and each block is asked of the host, by `e` with `r` or `w`. */
uint32_t forth83_serve(forth83 *machine, uint8_t kind, const uint8_t *body, uint64_t body_size, uint8_t *reply, uint64_t reply_size,
                       uint64_t *replied);

/* Enters the word at a compilation address; the next forth83_run goes on with it. The return stack is emptied. */
uint32_t forth83_enter(forth83 *machine, uint16_t word);

/* Calls the word at a compilation address: the next forth83_run goes on with it, and ends by FORTH83_STOP_RETURNED when it has returned.
 * What was running is kept aside: its place, its return stack, and the request for a key or a line that is open. The word finds the data stack
 * without the two cells of a line, so push its arguments after this call, and pop its results before forth83_resume, which puts back
 * what was kept aside. forth83_resume may come earlier: what is left of the word is then given up, with what it asks.
 * A word that meets a fault does not return: the image's fault handler asks for a line (FORTH83_STOP_TYPED, and faults.count is
 * another number). The call is still open then, and another one answers FORTH83_WAITING. So call forth83_resume after each word
 * that was called, however its run ended. A machine that halted meanwhile cannot be resumed (FORTH83_HALTED). */
uint32_t forth83_call(forth83 *machine, uint16_t word);
uint32_t forth83_resume(forth83 *machine);

/* Pushes on the data stack, and pops its top into x. FORTH83_WAITING where the machine asks, since what a request needs lies
 * on top then: below a line's two cells lies what the lines before left. */
uint32_t forth83_push(forth83 *machine, uint16_t x);
uint32_t forth83_pop(forth83 *machine, uint16_t *x);

/* Saves memory up to HERE as an image that starts with the word at entry: puts its file into file, and its size into size. With 63,504
 * bytes of room each file fits. Bytes after the file stay as they were. */
uint32_t forth83_save(const forth83 *machine, uint16_t entry, uint8_t *file, uint64_t file_size, uint64_t *size);

/* What a status says, in words. */
static inline const char *forth83_status_text(uint32_t status)
{
    static const char *const texts[] = {
        "done", "the record keeps no machine", "out of memory", "too little room", "the image ends too soon",
        "bytes follow the image", "not an image", "an image of another version", "the image has a wrong number of buffers",
        "a size that does not fit", "the machine is halted", "the machine waits for an answer", "this answer was not asked for",
        "a page must have 1,024 bytes", "the stack is full or empty", "no word has that name",
        "a chain of more than 32,768 headers", "the word is no colon definition", "the word is the thread of no text",
        "the word uses a word without a name", "a name in the word means another word", "a text in the word has a quote",
        "the reply is longer than the room", "what was given is refused"};
    return status < sizeof texts / sizeof texts[0] ? texts[status] : "unknown status";
}

/* A cell of memory is two bytes, the low one first, and memory goes on at address 0 after its end. These are the header's own
 * code, and write any address: so may a host. */
static inline uint16_t forth83_cell(const forth83 *machine, uint16_t address)
{
    return FORTH83_AS(uint16_t, machine->memory[address] + 256u * machine->memory[FORTH83_AS(uint16_t, address + 1u)]);
}

static inline void forth83_set_cell(forth83 *machine, uint16_t address, uint16_t x)
{
    machine->memory[address] = FORTH83_AS(uint8_t, x);
    machine->memory[FORTH83_AS(uint16_t, address + 1u)] = FORTH83_AS(uint8_t, x / 256u);
}

/* How many cells the data stack has. */
static inline unsigned forth83_depth(const forth83 *machine)
{
    return machine->values_top > 256 ? 0 : 256u - machine->values_top;
}

/* Lets the machine forget a block that it has read, so that the next BLOCK of it asks the host again: for blocks that are devices. A block
 * that was updated stays, since it is still to be written. 1 if the machine has no such block then. */
static inline int forth83_drop_block(forth83 *machine, uint16_t block)
{
    for (unsigned i = 0; i < machine->buffer_count && i < 16; i++) {
        forth83_buffer *buffer = &machine->buffers[i];
        if (buffer->has_block != 1 || buffer->block != block)
            continue;
        if (buffer->updated)
            return 0;
        buffer->has_block = 0;
    }
    return 1;
}

/* Gives the bytes that did not fit into the room to `take`, with `host`: in one piece, or in two where they go on at address 0; and a
 * blank after a line. It gives none if all that was shown fitted. Call it after what is in the room is taken. */
static inline void forth83_take_span(const forth83 *machine, const forth83_end *end,
                                     void (*take)(void *host, const uint8_t *bytes, uint64_t size), void *host)
{
    static const uint8_t blank = 32;
    uint32_t before_end = 65536u - end->at;
    uint32_t front = end->len < before_end ? end->len : before_end;
    if (front > 0)
        take(host, machine->memory + end->at, front);
    if (front < end->len)
        take(host, machine->memory, end->len - front);
    if (end->stop == FORTH83_STOP_LINE)
        take(host, &blank, 1);
}

#ifdef __cplusplus
}
#endif
#endif
