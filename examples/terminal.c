/* A Forth at a terminal, over the C library, for Linux and other POSIX systems and for Windows:
 *
 *   terminal IMAGE [BLOCKS] [--save OUT]
 *
 * IMAGE is an image file, and BLOCKS a file of blocks of 1,024 bytes, which no other run has meanwhile. Changed blocks are written when the
 * Forth asks for it, and at the end: at BYE, ^D in an empty line, the end of input, and when the terminal or the window is closed. After a
 * fault that nothing handles, and where BLOCKS cannot be written, they go into BLOCKS.journal, which the next session offers (./forth offers
 * it, too). --save OUT also writes the dictionary as an image. In a line, Backspace deletes a byte, and ^U and ^C the line. ^C interrupts
 * what is running: the machine goes on with the image's BREAK, or else with its ABORT. Programs that read keys get each key as it is, without
 * echo. In a pipe nothing is edited. The status is 0, 1 if something was refused or could not be written, 3 after a fault, 5 if the output
 * could not be written.
 *
 *   cc -O2 -I library/include terminal.c library/lib/libforth83.a -o terminal */
#include "forth83.h"

#include <stdbool.h>
#include <stdio.h>
#include <stdlib.h>
#include <string.h>
#ifdef _WIN32
#include <windows.h>
#include <fcntl.h>
#include <io.h>
#include <share.h>
#include <sys/stat.h>
#else
#include <fcntl.h>
#include <poll.h>
#include <signal.h>
#include <sys/file.h>
#include <sys/stat.h>
#include <termios.h>
#include <unistd.h>
#endif

enum { SLICE = 250000, MOST_BLOCKS = 65536, MOST_NAME = 4096, MOST_BESIDE = 100, CTRL_C = 3, CTRL_D = 4, CTRL_U = 21, RUBOUT = 127 };

static const char journal_head[] = "jaurimet journal 1\n"; /* then of each block its number, a new line, and its bytes */

static forth83 machine;
static uint8_t image[70000], shown[FORTH83_ROOM];
static size_t image_size;
static FILE *block_file;
static const char *block_name;
static bool is_terminal;           /* standard input is a terminal, whose keys come one by one */
static uint16_t interrupting;      /* the word that ^C enters; 0 if there is none */
static uint64_t echoed;            /* how many bytes the terminal shows already that the machine will show */
static uint8_t ahead[4096];        /* bytes that were typed while the machine ran */
static size_t ahead_size;
static bool has_ended;             /* the terminal was closed, or input has ended, while the machine ran */
static bool has_failed;            /* what the Forth shows cannot be written */

/* The console of the system: start, end, whether a byte has come, and the next byte, or -1 at the end of input. */
#ifdef _WIN32
static HANDLE in_handle, out_handle, leaving, has_left;
static DWORD in_mode, out_mode;
static volatile LONG is_breaking;

static void end_console(void)
{
    if (is_terminal) {
        SetConsoleMode(in_handle, in_mode);
        SetConsoleMode(out_handle, out_mode);
    }
}

/* Ctrl+Break interrupts; a closed window ends the session. Windows ends the process when this returns, or after five seconds. */
static BOOL WINAPI on_control(DWORD event)
{
    if (event == CTRL_BREAK_EVENT || (event == CTRL_C_EVENT && is_terminal)) {
        is_breaking = 1;
        return TRUE;
    }
    SetEvent(leaving);
    WaitForSingleObject(has_left, 5000);
    return TRUE;
}

static bool is_leaving(void)
{
    return WaitForSingleObject(leaving, 0) == WAIT_OBJECT_0;
}

static bool takes_break(void)
{
    return InterlockedExchange(&is_breaking, 0) != 0;
}

static void start_console(void)
{
    leaving = CreateEventA(NULL, TRUE, FALSE, NULL);
    has_left = CreateEventA(NULL, TRUE, FALSE, NULL);
    SetConsoleCtrlHandler(on_control, TRUE);
    in_handle = GetStdHandle(STD_INPUT_HANDLE);
    out_handle = GetStdHandle(STD_OUTPUT_HANDLE);
    _setmode(_fileno(stdin), _O_BINARY);
    is_terminal = GetConsoleMode(in_handle, &in_mode) && GetConsoleMode(out_handle, &out_mode);
    if (is_terminal) {
        SetConsoleMode(in_handle, 0x200);                  /* keys as bytes, arrows as sequences */
        SetConsoleMode(out_handle, out_mode | 1 | 2 | 4);  /* sequences are obeyed */
    } else {
        _setmode(_fileno(stdout), _O_BINARY);
    }
}

static bool has_byte(void)
{
    INPUT_RECORD record;
    DWORD count;
    while (PeekConsoleInputA(in_handle, &record, 1, &count) && count > 0) {
        if (record.EventType == KEY_EVENT && record.Event.KeyEvent.bKeyDown && record.Event.KeyEvent.uChar.AsciiChar != 0)
            return true;
        ReadConsoleInputA(in_handle, &record, 1, &count);
    }
    return false;
}

static int next_byte(void)
{
    HANDLE awaited[2] = {leaving, in_handle};
    uint8_t byte;
    DWORD count;
    while (is_terminal && !has_byte())
        if (WaitForMultipleObjects(2, awaited, FALSE, INFINITE) == WAIT_OBJECT_0)
            return -1;
    return !is_leaving() && ReadFile(in_handle, &byte, 1, &count, NULL) && count == 1 ? byte : -1;
}

static FILE *open_alone(const char *name)
{
    return _fsopen(name, "r+b", _SH_DENYRW);
}

static bool take_place(const char *made, const char *name)
{
    return MoveFileExA(made, name, MOVEFILE_REPLACE_EXISTING) != 0;
}

/* A new file, which nobody has yet. */
static FILE *open_new(const char *made, const char *like)
{
    (void)like;
    int file = _open(made, _O_CREAT | _O_EXCL | _O_WRONLY | _O_BINARY, _S_IREAD | _S_IWRITE);
    return file < 0 ? NULL : _fdopen(file, "wb");
}

static void console_is_done(void)
{
    SetEvent(has_left);
}
#else
static struct termios before;
static volatile sig_atomic_t was_asked_to_leave;

static void leave(int number)
{
    (void)number;
    was_asked_to_leave = 1;
}

static bool is_leaving(void)
{
    return was_asked_to_leave != 0;
}

static bool takes_break(void)
{
    return false;
}

static void end_console(void)
{
    if (is_terminal)
        tcsetattr(0, TCSADRAIN, &before);
}

static void start_console(void)
{
    struct termios raw;
    struct sigaction action;
    memset(&action, 0, sizeof action);
    action.sa_handler = leave;
    sigaction(SIGHUP, &action, NULL);
    sigaction(SIGTERM, &action, NULL);
    sigaction(SIGINT, &action, NULL);
    signal(SIGPIPE, SIG_IGN);
    is_terminal = isatty(0) && isatty(1) && tcgetattr(0, &before) == 0;
    if (!is_terminal)
        return;
    raw = before;
    raw.c_lflag &= ~(tcflag_t)(ICANON | ECHO | ISIG | IEXTEN);
    raw.c_iflag &= ~(tcflag_t)(IXON | ICRNL | INLCR);
    raw.c_cc[VMIN] = 1;
    raw.c_cc[VTIME] = 0;
    tcsetattr(0, TCSADRAIN, &raw);
}

static bool has_byte(void)
{
    struct pollfd asked = {0, POLLIN, 0};
    return is_leaving() || poll(&asked, 1, 0) > 0;
}

static int next_byte(void)
{
    uint8_t byte;
    return !is_leaving() && read(0, &byte, 1) == 1 ? byte : -1;
}

/* The file of blocks, which no other run has meanwhile; NULL if it cannot be opened, or another one has it. */
static FILE *open_alone(const char *name)
{
    FILE *file = fopen(name, "r+b");
    if (file != NULL && flock(fileno(file), LOCK_EX | LOCK_NB) != 0) {
        fclose(file);
        return NULL;
    }
    return file;
}

static bool take_place(const char *made, const char *name)
{
    return rename(made, name) == 0;
}

/* A new file, which nobody has yet, with the mode and the owner of the file `like`, if there is one; only root may give files away. */
static FILE *open_new(const char *made, const char *like)
{
    struct stat there;
    bool is_there = like != NULL && stat(like, &there) == 0;
    int file = open(made, O_CREAT | O_EXCL | O_WRONLY, is_there ? 0600 : 0666);
    if (file < 0)
        return NULL;
    if (is_there && ((fchown(file, there.st_uid, there.st_gid) != 0 && geteuid() == 0) || fchmod(file, there.st_mode & 0777) != 0)) {
        close(file);
        return NULL;
    }
    return fdopen(file, "wb");
}

static void console_is_done(void)
{
}
#endif

static void refuse(const char *what, const char *name)
{
    end_console();
    fprintf(stderr, "terminal: %s%s\n", what, name);
    exit(1);
}

static void must(uint32_t status, const char *what)
{
    char why[80];
    if (status != FORTH83_DONE) {
        snprintf(why, sizeof why, ": %s", forth83_status_text(status));
        refuse(what, why);
    }
}

/* The next byte that was typed, or -1 at the end of input. */
static int typed_byte(void)
{
    int byte;
    has_failed |= fflush(stdout) != 0;
    if (ahead_size == 0)
        return next_byte();
    byte = ahead[0];
    memmove(ahead, ahead + 1, --ahead_size);
    return byte;
}

/* Blocks: reading fails where the file has no such block. */
static bool move_block(uint16_t block, uint8_t *page, bool is_write)
{
    if (block_file == NULL || fseek(block_file, (long)block * FORTH83_PAGE, SEEK_SET) != 0)
        return false;
    if (is_write)
        return fwrite(page, 1, FORTH83_PAGE, block_file) == FORTH83_PAGE && fflush(block_file) == 0;
    return fread(page, 1, FORTH83_PAGE, block_file) == FORTH83_PAGE;
}

static void serve(void)
{
    uint8_t page[FORTH83_PAGE];
    bool is_write = machine.asks == FORTH83_ASKS_WRITE;
    if (is_write)
        must(forth83_page(&machine, page, sizeof page), "a block");
    if (!move_block(machine.asked, page, is_write))
        must(forth83_failed(&machine), "a block that fails");
    else if (is_write)
        must(forth83_written(&machine), "a block that was written");
    else
        must(forth83_read(&machine, page, sizeof page), "a block that was read");
}

/* The next updated buffer from this one on; as many as there are if there is none. */
static unsigned next_updated(unsigned from)
{
    while (from < machine.buffer_count && !(machine.buffers[from].has_block && machine.buffers[from].updated))
        from++;
    return from;
}

/* The bytes of a buffer: they are at the end of memory, by their slots. */
static uint8_t *page_of(const forth83_buffer *it)
{
    return &machine.memory[65536u - 1024u * machine.buffer_count + 1024u * it->slot];
}

/* Opens a new file beside NAME, by a name that is free; a journal is like the file of blocks. */
static FILE *open_beside(const char *name, char *made)
{
    struct stat there;
    FILE *file = NULL;
    for (int i = 0; file == NULL && i < MOST_BESIDE; i++)
        if (snprintf(made, MOST_NAME, "%s.%d.new", name, i) < MOST_NAME)
            file = open_new(made, stat(name, &there) == 0 ? name : block_name);
    return file;
}

/* Writes a file anew, by `put`: beside it first, so that the old one stays if this fails. */
static bool write_anew(const char *name, bool (*put)(FILE *file))
{
    char made[MOST_NAME];
    FILE *file = open_beside(name, made);
    if (file == NULL)
        return false;
    bool is_put = put(file);
    if (fclose(file) == 0 && is_put && take_place(made, name))
        return true;
    remove(made);
    return false;
}

static bool put_journal(FILE *file)
{
    bool is_put = fputs(journal_head, file) >= 0;
    for (unsigned at = next_updated(0); at < machine.buffer_count; at = next_updated(at + 1)) {
        const forth83_buffer *it = &machine.buffers[at];
        is_put = is_put && fprintf(file, "%u\n", it->block) > 0 && fwrite(page_of(it), 1, FORTH83_PAGE, file) == FORTH83_PAGE;
    }
    return is_put;
}

/* Puts the updated blocks into the journal, and says so; at a terminal it is tried again as long as the person wants. */
static void keep_journal(const char *why)
{
    char name[MOST_NAME];
    snprintf(name, sizeof name, "%s.journal", block_name);
    while (!write_anew(name, put_journal)) {
        fprintf(stderr, "terminal: %s, and %s cannot be written: make room, then press a key; ^D gives up what was changed\n", why, name);
        int byte = is_terminal ? next_byte() : -1;
        if (byte < 0 || byte == CTRL_D)
            return;
    }
    fprintf(stderr, "terminal: %s: the changed blocks are in %s, and the next session offers them\n", why, name);
}

/* Writes the updated blocks, which halting does not; those of a machine that a fault has halted go into the journal. */
static bool save_blocks(void)
{
    bool is_ruined = machine.halts == FORTH83_FAULT, is_written = true;
    char why[64] = "";
    unsigned at = next_updated(0);
    if (at == machine.buffer_count || block_file == NULL)
        return true;
    for (; !is_ruined && at < machine.buffer_count; at = next_updated(at + 1)) {
        const forth83_buffer *it = &machine.buffers[at];
        if (!move_block(it->block, page_of(it), true) && is_written) {
            is_written = false;
            snprintf(why, sizeof why, "block %u cannot be written", it->block);
        }
    }
    if (is_ruined)
        snprintf(why, sizeof why, "fault %u", machine.fault);
    if (is_ruined || !is_written)
        keep_journal(why);
    return is_written;
}

/* Writes the blocks of a journal into the file. */
static bool take_journal(FILE *journal)
{
    uint8_t page[FORTH83_PAGE];
    unsigned block;
    bool is_taken = true;
    while (is_taken && fscanf(journal, "%u", &block) == 1 && fgetc(journal) == '\n' && fread(page, 1, sizeof page, journal) == sizeof page)
        is_taken = block < MOST_BLOCKS && move_block((uint16_t)block, page, true);
    return is_taken;
}

/* A name that no file has: NAME.old, or NAME.old2 and so on. */
static void find_free(const char *name, char *old, size_t size)
{
    snprintf(old, size, "%s.old", name);
    unsigned number = 1;
    for (FILE *taken; (taken = fopen(old, "rb")) != NULL; fclose(taken))
        snprintf(old, size, "%s.old%u", name, ++number);
}

/* What an earlier session could not write is offered. */
static void offer_journal(void)
{
    char name[MOST_NAME], old[MOST_NAME + 16], head[sizeof journal_head] = "";
    snprintf(name, sizeof name, "%s.journal", block_name);
    FILE *journal = fopen(name, "rb");
    if (journal == NULL)
        return;
    if (!is_terminal)
        refuse(name, " has blocks that an earlier session could not write; start one at a terminal, which offers them");
    printf("%s has blocks that an earlier session could not write. Write them into %s? (y or n) ", name, block_name);
    fflush(stdout);
    int byte = next_byte();
    if (byte != 'y' && byte != 'n')
        refuse("nothing was written", "");
    if (byte == 'y' && (fgets(head, sizeof head, journal) == NULL || strcmp(head, journal_head) != 0 || !take_journal(journal)))
        refuse("cannot write all of ", name);
    fclose(journal);
    find_free(name, old, sizeof old);
    if (!take_place(name, old))
        refuse("cannot rename ", name);
    printf("%c\nit is %s now\n", byte, old);
}

static uint64_t saved_size;

static bool put_image(FILE *file)
{
    return fwrite(image, 1, (size_t)saved_size, file) == (size_t)saved_size;
}

/* Refuses a name in whose folder nothing can be written, before anything is typed. */
static void try_name(const char *name)
{
    char made[MOST_NAME];
    FILE *file = open_beside(name, made);
    if (file == NULL)
        refuse("cannot write ", name);
    fclose(file);
    remove(made);
}

/* Writes the dictionary as an image that starts as the first one does. */
static void save_image(const char *name)
{
    unsigned at = image[8] == 1 ? 10 : 12;
    uint16_t entry = (uint16_t)(image[at] + 256u * image[at + 1]);
    must(forth83_save(&machine, entry, image, sizeof image, &saved_size), "an image");
    if (!write_anew(name, put_image))
        refuse("cannot write ", name);
}

/* Reads a line of at most MOST bytes, and edits it; how many bytes it has with its return. 0: input has ended. */
static size_t read_line(uint8_t *line, size_t most)
{
    size_t size = 0;
    while (size < most) {
        int byte = typed_byte();
        if (byte < 0 || (byte == CTRL_D && is_terminal && size == 0))
            return size;
        if (is_terminal && (byte == CTRL_C || byte == CTRL_U || byte == 8 || byte == RUBOUT)) {
            for (size_t gone = byte == 8 || byte == RUBOUT ? size > 0 : size; gone > 0; gone--, size--)
                fputs("\b \b", stdout);
        } else if (byte == 10 || byte == 13) {
            line[size] = 10;
            echoed = is_terminal ? size : 0;
            return size + 1;
        } else if (!is_terminal || (byte >= 32 && byte != 27)) {
            line[size++] = (uint8_t)byte;
            if (is_terminal)
                putchar(byte);
        }
    }
    echoed = is_terminal ? size : 0;
    return size;
}

static void show(const uint8_t *bytes, uint64_t size)
{
    uint64_t known = size < echoed ? size : echoed;
    echoed -= known;
    has_failed |= fwrite(bytes + known, 1, (size_t)(size - known), stdout) != (size_t)(size - known);
    if (is_terminal)
        has_failed |= fflush(stdout) != 0;
}

/* Runs the machine with these bytes for at most LIMIT ticks; why it stopped. All bytes are read, as there are as many as were asked. */
static uint32_t run(const uint8_t *bytes, size_t size, uint64_t limit)
{
    forth83_end end;
    must(forth83_run(&machine, bytes, size, shown, sizeof shown, limit, &end), "a run");
    show(shown, end.shown);
    return end.stop;
}

/* ^C: goes on with the interrupting word, if there is one and nothing is asked. */
static void interrupt(void)
{
    ahead_size = 0;
    echoed = 0;
    if (interrupting != 0 && machine.asks == FORTH83_ASKS_NOTHING && !machine.halts) {
        must(forth83_enter(&machine, interrupting), "^C");
        putchar('\n');
    }
}

/* While the machine runs: bytes that are typed wait for it, and ^C interrupts it. */
static void look_at_keys(void)
{
    has_ended |= is_leaving();
    if (takes_break())
        interrupt();
    while (is_terminal && !has_ended && ahead_size < sizeof ahead && has_byte()) {
        int byte = next_byte();
        has_ended = byte < 0;
        if (byte == CTRL_C)
            interrupt();
        else if (byte >= 0)
            ahead[ahead_size++] = (uint8_t)byte;
    }
}

/* Gives the machine what it asks for: a key, or a line. */
static uint32_t give(void)
{
    static uint8_t line[65536];
    size_t size;
    int key;
    uint32_t stop;
    if (machine.asks == FORTH83_ASKS_LINE) {
        size = read_line(line, machine.asked);
        if (size > 0)
            return run(line, size, SLICE);
    } else if ((key = typed_byte()) >= 0) {
        line[0] = (uint8_t)key;
        stop = run(line, 1, is_terminal && key == CTRL_C ? 1 : SLICE);
        if (is_terminal && key == CTRL_C)
            interrupt();
        return stop;
    }
    must(forth83_ended(&machine), "the end of input");
    return FORTH83_STOP_HALTED;
}

static uint32_t open_blocks(void)
{
    block_file = open_alone(block_name);
    if (block_file == NULL || setvbuf(block_file, NULL, _IONBF, 0) != 0 || fseek(block_file, 0, SEEK_END) != 0)
        refuse(block_name, " cannot be opened, or another run has it: end that first, or take a copy");
    long blocks = ftell(block_file) / FORTH83_PAGE;
    return blocks > MOST_BLOCKS ? MOST_BLOCKS : (uint32_t)blocks;
}

static void open_files(const char *image_name)
{
    FILE *file = fopen(image_name, "rb");
    if (file == NULL)
        refuse("cannot open ", image_name);
    image_size = fread(image, 1, sizeof image, file);
    fclose(file);
    must(forth83_load(image, image_size, block_name == NULL ? 0 : open_blocks(), &machine), image_name);
    if (forth83_find(&machine, (const uint8_t *)"BREAK", 5, &interrupting) != FORTH83_DONE &&
        forth83_find(&machine, (const uint8_t *)"ABORT", 5, &interrupting) != FORTH83_DONE)
        interrupting = 0;
}

int main(int count, char **words)
{
    const char *out = count > 3 && strcmp(words[count - 2], "--save") == 0 ? words[count - 1] : NULL;
    int names = count - 1 - (out == NULL ? 0 : 2);
    uint32_t stop = FORTH83_STOP_LIMIT;
    if (names < 1 || names > 2) {
        fprintf(stderr, "usage: terminal IMAGE [BLOCKS] [--save OUT]\n");
        return 2;
    }
    block_name = names == 2 ? words[2] : NULL;
    open_files(words[1]);
    if (out != NULL)
        try_name(out);
    start_console();
    if (block_name != NULL)
        offer_journal();
    while (stop != FORTH83_STOP_HALTED && !has_ended && !has_failed) {
        if (stop == FORTH83_STOP_BLOCK)
            serve();
        look_at_keys();
        stop = stop == FORTH83_STOP_TYPED ? give() : run((const uint8_t *)"", 0, SLICE);
    }
    if (is_terminal)
        putchar('\n');
    has_failed |= fflush(stdout) != 0;
    bool is_saved = save_blocks();
    end_console();
    if (out != NULL)
        save_image(out);
    console_is_done();
    if (has_failed)
        fprintf(stderr, "terminal: what the Forth shows cannot be written\n");
    if (machine.halts == FORTH83_FAULT)
        fprintf(stderr, "terminal: fault %u ended the Forth\n", machine.fault);
    return has_failed ? 5 : machine.halts == FORTH83_FAULT ? 3 : is_saved ? 0 : 1;
}
