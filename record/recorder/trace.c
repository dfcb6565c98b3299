// The trace, as `tardis search` reads it.
#include "recorder.h"
#include <errno.h>
#include <fcntl.h>
#include <link.h>
#include <stdarg.h>
#include <stdio.h>
#include <stdlib.h>
#include <string.h>
#include <sys/stat.h>
#include <unistd.h>

enum { LEFT_OUT = 0xff };
static u8 *widths;              // of each word in the table, the narrowest access to it; 0: none
static int thread_count;
static const u64 *note_counts;

#define EACH_OPERATION(o)                                                                                                                             \
    for (int k = 0; k < thread_count; k++)                                                                                                            \
        for (u64 n = 0; n < note_counts[k]; n++)                                                                                                      \
            for (operation *o = &cores[k]->chunks[n / CHUNK]->operations[n % CHUNK]; o; o = NULL)

static slot *slot_of(u64 at) { return find(at & LOCK_BIT ? at : at / 8); }
static u8 *width_at(u64 at) { return &widths[slot_of(at) - slots]; }

// Sound: an access is told in parts as wide as the narrowest access there. Parts say less than the whole. Gives the width of the part at `*at`,
// which goes over words that are left out, or 0 behind the last.
static u64 part(const operation *o, u64 *at) {
    if (o->at & LOCK_BIT) return *at == o->at && *width_at(*at) != LEFT_OUT ? 8 : 0;
    for (; *at < o->at + size_of(o); *at = (*at | 7) + 1)
        if (*width_at(*at) != LEFT_OUT) return *width_at(*at);
    return 0;
}
#define EACH_PART(o, at, wide) for (u64 at = (o)->at, wide; size_of(o) && (wide = part(o, &at)); at += wide)
static u64 bits(u64 word, u64 from, u64 wide) { return word >> from * 8 & ~0ull >> (64 - 8 * wide); }

static void find_widths(void) {
    EACH_OPERATION(o)
        for (u64 at = o->at; !(o->at & LOCK_BIT) && at < o->at + size_of(o); at = (at | 7) + 1) {
            u8 *width = width_at(at), own = (o->at | size_of(o) | 8) & -(o->at | size_of(o) | 8);
            if (!*width || own < *width) *width = own;
        }
}

// What each word held before, part by part.
static u64 first_part(const slot *s, u64 *from, u64 *word) {
    u64 wide = s->word & LOCK_BIT ? 0 : widths[s - slots];
    for (; wide && wide != LEFT_OUT && *from < 8; *from += wide)
        if (s->bytes >> *from & 1) return *word = bits(s->first, *from, wide), wide;
    return 0;
}
#define EACH_FIRST(s, from, wide, word)                                                                                                               \
    for (slot *s = slots; s < slots + SLOTS; s++)                                                                                                     \
        for (u64 from = 0, word = 0, wide; s->word && (wide = first_part(s, &from, &word)); from += wide)

// The words that something stored at an address, the first one among them.
static struct { u64 at, word; } *given;
static u64 given_room;
static int is_given(u64 at, u64 word, int put) {
    for (u64 i = ((at * 0x9E3779B97F4A7C15u ^ word) * 0xD6E8FEB86659FD93u >> 20) % given_room;; i = (i + 1) % given_room) {
        if (given[i].at == at && given[i].word == word) return 1;
        if (!given[i].at) return put ? given[i].at = at, given[i].word = word, 1 : 0;
    }
}

// Sound: a word that nobody is known to have stored comes from code that wasn't built for recording. Of such a place nothing is told.
static u64 leave_out_unknown(u64 *example) {
    u64 stores = 1, count = 0;
    EACH_FIRST(s, from, wide, word) stores++;
    EACH_OPERATION(o) EACH_PART(o, at, wide) stores += kind_of(o) & STORE ? 1 : 0;
    given_room = stores * 2;
    if (!(given = memory(given_room * sizeof *given, 0))) return lost = "memory ended", 0;
    EACH_FIRST(s, from, wide, word) is_given(s->word * 8 + from, word, 1);
    EACH_OPERATION(o) if (kind_of(o) & STORE) EACH_PART(o, at, wide) is_given(at, bits(o->stored, at - o->at, wide), 1);
    EACH_OPERATION(o) if (kind_of(o) & LOAD) EACH_PART(o, at, wide)
        if (!(at & LOCK_BIT && !o->read) && !is_given(at, bits(o->read, at - o->at, wide), 0)) *width_at(at) = LEFT_OUT, *example = at, count++;
    return count;
}

static u64 leave_out_unsure(void) {
    u64 count = 0;
    for (int k = 0; k < thread_count; k++)
        for (int i = 0; cores[k] && i < cores[k]->unsure_count; i++) {
            slot *s = find(cores[k]->unsure[i]);
            if (s) widths[s - slots] = LEFT_OUT, count++;
        }
    return count;
}

static char out[1 << 16];
static int out_file, out_used, out_error;
static void flush(void) {
    for (int done = 0, n; done < out_used && !out_error; done += n)
        if ((n = write(out_file, out + done, out_used - done)) < 0) out_error = errno == EINTR ? n = 0 : errno;
    out_used = 0;
}
__attribute__((format(printf, 1, 2))) static void put(const char *form, ...) {
    va_list it;
    va_start(it, form);
    if (out_used > (int)sizeof out - 5000) flush();
    out_used += vsnprintf(out + out_used, 5000, form, it);
    va_end(it);
}

// The files of the program, and where they were loaded. A site is told as the number of its file and the place in it.
static struct { u64 base, end; } files[256];
static int file_count;
static int put_file(struct dl_phdr_info *info, size_t size, void *nothing) {
    (void)size, (void)nothing;
    char own[4096] = "";
    u64 end = 0;
    if (!*info->dlpi_name && readlink("/proc/self/exe", own, sizeof own - 1) < 0) return 0;
    for (int i = 0; i < info->dlpi_phnum; i++)
        if (info->dlpi_phdr[i].p_type == PT_LOAD) end = info->dlpi_addr + info->dlpi_phdr[i].p_vaddr + info->dlpi_phdr[i].p_memsz;
    files[file_count].base = info->dlpi_addr, files[file_count].end = end;
    put("# file %d at %#lx: %s\n", file_count, (u64)info->dlpi_addr, *own ? own : info->dlpi_name);
    return ++file_count == 256;
}
static void put_site(u64 site) {
    for (int i = 0; i < file_count; i++)
        if (files[i].base <= site && site < files[i].end) {
            put("  # %d+%lx\n", i, site - files[i].base);
            return;
        }
    put("\n");
}

static const char *shown(u64 word) {
    static char text[2][24];
    static int which;
    snprintf(text[which = !which], 24, word < 1000000 ? "%lu" : "%#lx", word);
    return text[which];
}
static u64 line_count;
static void put_operation(int k, const operation *o) {
    EACH_PART(o, at, wide) {
        u64 read = bits(o->read, at - o->at, wide), stored = bits(o->stored, at - o->at, wide);
        if ((kind_of(o) & SWAP) == LOAD) put("%d: M[%#lx] == %s", k, at, shown(read));
        if ((kind_of(o) & SWAP) == STORE) put("%d: M[%#lx] := %s", k, at, shown(stored));
        if ((kind_of(o) & SWAP) == SWAP) put("%d: { M[%#lx] == %s; M[%#lx] := %s }", k, at, shown(read), at, shown(stored));
        put_site(site_of(o));
        line_count++;
    }
    if (kind_of(o) & FENCE) put("%d: sync\n", k);
}

// Between two times that were taken, time is supposed to pass evenly.
static u64 time_of(int k, u64 n) {
#define TIME(i) cores[k]->chunks[(i) / CHUNK]->times[(i) % CHUNK]
    u64 from = n, to = n + 1;
    while (!TIME(from)) from--;
    while (to < note_counts[k] && !TIME(to)) to++;
    if (to == note_counts[k]) return TIME(from) + (n - from) * 100;
    return TIME(from) + (TIME(to) - TIME(from)) * (n - from) / (to - from);
}
// The operations come in about the order of their times, which `search` tries first.
static void put_operations(void) {
    u64 done[CORES] = {0}, next[CORES];
    for (int k = 0; k < thread_count; k++) next[k] = note_counts[k] ? time_of(k, 0) : ~0ull;
    for (;;) {
        int best = 0;
        for (int k = 1; k < thread_count; k++) if (next[k] < next[best]) best = k;
        if (next[best] == ~0ull) return;
        u64 n = done[best]++;
        put_operation(best, &cores[best]->chunks[n / CHUNK]->operations[n % CHUNK]);
        next[best] = n + 1 < note_counts[best] ? time_of(best, n + 1) : ~0ull;
    }
}

// The most lines that a core has, in thousandths of what search takes.
static u64 fullest(void) {
    u64 lines[CORES] = {0}, most_lines = 0;
    EACH_FIRST(s, from, wide, word) lines[0] += word != 0;
    EACH_OPERATION(o) EACH_PART(o, at, wide) lines[k]++;
    for (int k = 0; k < CORES; k++) if (lines[k] > most_lines) most_lines = lines[k];
    return (most_lines * 1000 + MOST - 1) / MOST;
}

static void put_trace(void) {
    const char *note_ = getenv("RECORD_NOTE");
    if (note_ && *note_) put("# %.200s\n", note_);
    dl_iterate_phdr(put_file, NULL);
    EACH_FIRST(s, from, wide, word)
        if (word) put("0: M[%#lx] := %s  # before\n", s->word * 8 + from, shown(word)), line_count++;
    put_operations();
    flush();
}

static void tell_parts(void) {
    u64 parts = 0;
    EACH_OPERATION(o) EACH_PART(o, at, wide) parts += wide < size_of(o) && !(at & LOCK_BIT);
    if (parts) dprintf(2, "record: %lu lines are parts of wider accesses: others there are narrower, or these have 16 bytes\n", parts);
}

// The file gets its name when it is whole. What is no file, as a pipe, is written straight.
void write_trace(int count, const u64 *counts) {
    char draft[4104];
    struct stat is;
    int is_straight = !stat(file_name, &is) && !S_ISREG(is.st_mode);
    u64 unknown, unsure, example = 0;
    thread_count = count, note_counts = counts;
    if (!(widths = memory(SLOTS, 0))) { dprintf(2, "record: no trace: memory ended\n"); return; }
    find_widths();
    unsure = leave_out_unsure(), unknown = leave_out_unknown(&example);
    if (lost) { dprintf(2, "record: no trace: %s\n", lost); return; }
    if (fullest() > 1000) { dprintf(2, "record: no trace: a thread has more lines than search takes; try --most %lu\n", most * 1000 / fullest()); return; }
    snprintf(draft, sizeof draft, "%s%s", file_name, is_straight ? "" : ".new");
    out_file = open(draft, O_WRONLY | O_CREAT | O_TRUNC | O_CLOEXEC, 0666);
    if (out_file >= 0) put_trace();
    if (out_file < 0 || close(out_file) || out_error || (!is_straight && rename(draft, file_name))) {
        dprintf(2, "record: no trace: %s: %s\n", file_name, strerror(out_error ? out_error : errno));
        if (!is_straight) unlink(draft);
        return;
    }
    dprintf(2, "record: %s: %lu operations of %d threads\n", file_name, line_count, count);
    if (unknown) dprintf(2, "record: left out words that code stored which isn't recorded: %lu loads; one at %#lx\n", unknown, example);
    if (unsure) dprintf(2, "record: left out %lu words where a signal or the end came into the middle of an operation\n", unsure);
    tell_parts();
}
