// Usage: cc -shared -fPIC -O1 -o refuse.so tools/refuse.c && LD_PRELOAD=./refuse.so REFUSED='FIRST STEP TOLD CALLS' PROGRAM
//
// Has a program meet each STEPth refusal of memory from number FIRST on, in one run of it. At each such allocation the process forks: the
// child is refused it, is granted each later one, and goes on to its end. The parent waits, writes the number and how the child ended to
// the descriptor TOLD, where CALLS is 1 with the calls that led there, and waits there for a byte, so that somebody may look at what the
// child left. Then it sets the files of the folder back to what they were, its place in each and its locks, and goes on as if nothing had
// been. A lock is let go where the child closes the file, though the parent has it open too. A file that a child removes only gets a dot
// before its name, so that it can be put back. tools/out-of-memory loads it.
//
// The program is to have all its files in the folder where it runs, and one thread. It allocates by malloc and realloc alone. What the
// loader takes before main isn't counted. The disk isn't waited for, the clock stands still, and a connection is a file: the Nth that is
// accepted is exchange-N, which has what the client sent, and to which the response is added.
#define _GNU_SOURCE
#include <dirent.h>
#include <errno.h>
#include <fcntl.h>
#include <limits.h>
#include <link.h>
#include <netinet/in.h>
#include <stdarg.h>
#include <stdint.h>
#include <stdio.h>
#include <stdlib.h>
#include <string.h>
#include <sys/stat.h>
#include <sys/syscall.h>
#include <sys/wait.h>
#include <time.h>
#include <unistd.h>

enum { FILES = 16, DESCRIPTORS = 32, SECONDS = 60 };
struct file { char name[NAME_MAX + 1]; ino_t inode; ssize_t size; char bytes[1 << 20]; };

extern void *__libc_malloc(size_t), *__libc_realloc(void *, size_t), __libc_free(void *);
static long first, step, number;
static int told, tells_calls, is_trying, is_child;
// How the file of each descriptor is locked.
static struct flock locks[DESCRIPTORS] = {[0 ... DESCRIPTORS - 1] = {.l_type = F_UNLCK}};
static struct file kept[FILES], seen;

__attribute__((constructor)) static void begin(void) {
    const char *asked = getenv("REFUSED");
    if (asked && sscanf(asked, "%ld %ld %d %d", &first, &step, &told, &tells_calls) != 4) abort();
}

// Ends the run where it can't go on as if nothing had been.
static void require(int holds, const char *what) {
    if (holds) return;
    dprintf(2, "refuse: allocation %ld: %s: %s\n", number, what, strerror(errno));
    _exit(70);
}

static void look_at(struct file *file, const char *name) {
    struct stat about;
    int from = open(name, O_RDONLY | O_CLOEXEC);
    require(from >= 0 && fstat(from, &about) == 0, name);
    strcpy(file->name, name);
    file->inode = about.st_ino;
    file->size = read(from, file->bytes, sizeof file->bytes);
    require(file->size == about.st_size, name);
    close(from);
}

static void set_back(const struct file *file) {
    look_at(&seen, file->name);
    require(seen.inode == file->inode, file->name);
    if (seen.size == file->size && memcmp(seen.bytes, file->bytes, file->size) == 0) return;
    int to = open(file->name, O_WRONLY | O_TRUNC | O_CLOEXEC);
    require(to >= 0 && write(to, file->bytes, file->size) == file->size, file->name);
    close(to);
}

// The next file of this folder.
static const char *next(DIR *folder) {
    struct dirent *entry;
    while ((entry = readdir(folder)) && entry->d_name[0] == '.');
    return entry ? entry->d_name : NULL;
}

static int keep(void) {
    DIR *folder = opendir(".");
    int files = 0;
    for (const char *name; (name = next(folder)); files++) {
        require(files < FILES, "too many files");
        look_at(&kept[files], name);
    }
    closedir(folder);
    return files;
}

// The name that a file has once a child has removed it.
static const char *removed(const char *path) {
    static char name[NAME_MAX + 1];
    const char *slash = strrchr(path, '/');
    snprintf(name, sizeof name, ".%s", slash ? slash + 1 : path);
    return name;
}

static void set_all_back(int files) {
    DIR *folder = opendir(".");
    for (const char *name; (name = next(folder));) {
        int at = 0;
        while (at < files && strcmp(kept[at].name, name)) at++;
        if (at == files) unlink(name);
    }
    closedir(folder);
    while (files) {
        const struct file *file = &kept[--files];
        if (access(file->name, F_OK) != 0) rename(removed(file->name), file->name);
        set_back(file);
    }
}

// The code of the program: where it begins in memory, and its first and last byte.
static struct { uintptr_t base, first, last; } code;

static int find_code(struct dl_phdr_info *of, size_t size, void *none) {
    code.base = of->dlpi_addr;
    for (int part = 0; part < of->dlpi_phnum; part++) {
        const ElfW(Phdr) *it = &of->dlpi_phdr[part];
        if (it->p_type != PT_LOAD || !(it->p_flags & PF_X)) continue;
        code.first = code.base + it->p_vaddr;
        code.last = code.first + it->p_memsz - 1;
    }
    return 1;
}

// Writes the calls of the stack into a text from the outermost on, as many as have room: behind which byte of the program each stands, and
// which byte it calls. Some may have returned, and those by a pointer are left out.
static void write_calls(char *text, size_t size) {
    extern void *__libc_stack_end;
    if (!code.last) dl_iterate_phdr(find_code, NULL);
    for (const uintptr_t *word = __libc_stack_end; word > (uintptr_t *)__builtin_frame_address(0); word--) {
        const unsigned char *behind = (const unsigned char *)*word;
        if (*word < code.first + 5 || *word > code.last || behind[-5] != 0xe8) continue;
        int32_t away;
        memcpy(&away, behind - 4, sizeof away);
        size_t written = snprintf(text, size, " %lx:%lx", *word - code.base, *word + away - code.base);
        if (written >= size) break;
        text += written;
        size -= written;
    }
    *text = 0;
}

// Tries the refusal of this allocation. Gives whether this is the child, which is refused it.
static int try(void) {
    off_t places[DESCRIPTORS];
    int files = keep(), status;
    char looked_at, calls[2048] = "";
    for (int file = 0; file < DESCRIPTORS; file++) places[file] = lseek(file, 0, SEEK_CUR);
    pid_t child = fork();
    require(child >= 0, "fork");
    if (child == 0) {
        alarm(SECONDS);
        return is_child = 1;
    }
    require(waitpid(child, &status, 0) == child, "wait");
    if (tells_calls) write_calls(calls, sizeof calls);
    dprintf(told, "%ld %d%s\n", number, status, calls);
    require(read(told, &looked_at, 1) == 1, "nobody looked");
    set_all_back(files);
    for (int file = 0; file < DESCRIPTORS; file++) {
        if (places[file] >= 0) lseek(file, places[file], SEEK_SET);
        syscall(SYS_fcntl, file, F_OFD_SETLK, &locks[file]);
    }
    return 0;
}

// In the child it stays set, so that nothing more is counted there, nor what a trial itself takes.
static int is_refused(void) {
    if (!step || is_trying || ++number < first || (number - first) % step) return 0;
    is_trying = 1;
    if (!try()) return is_trying = 0;
    errno = ENOMEM;
    return 1;
}

void *malloc(size_t size) { return is_refused() ? NULL : __libc_malloc(size); }
void *realloc(void *old, size_t size) { return is_refused() ? NULL : __libc_realloc(old, size); }
// A child frees nothing: to write into memory that it shares with its parent costs a copy of the page.
void free(void *held) { if (!is_child) __libc_free(held); }

int unlink(const char *path) { return is_child ? rename(path, removed(path)) : unlinkat(AT_FDCWD, path, 0); }
int fcntl(int file, int command, ...) {
    va_list more;
    va_start(more, command);
    void *given = va_arg(more, void *);
    va_end(more);
    int status = syscall(SYS_fcntl, file, command, given);
    if (command == F_OFD_SETLK && status == 0 && file < DESCRIPTORS) locks[file] = *(struct flock *)given;
    return status;
}
int close(int file) {
    if (file >= 0 && file < DESCRIPTORS && locks[file].l_type != F_UNLCK) {
        locks[file].l_type = F_UNLCK;
        syscall(SYS_fcntl, file, F_OFD_SETLK, &locks[file]);
    }
    return syscall(SYS_close, file);
}
int fsync(int file) { return 0; }
int fdatasync(int file) { return 0; }
int clock_gettime(clockid_t clock, struct timespec *now) { *now = (struct timespec){0}; return 0; }

int accept4(int listener, struct sockaddr *restrict from, socklen_t *restrict size, int flags) {
    static int accepted;
    char name[32];
    *(struct sockaddr_in *)from = (struct sockaddr_in){.sin_family = AF_INET};
    *size = sizeof(struct sockaddr_in);
    snprintf(name, sizeof name, "exchange-%d", ++accepted);
    return open(name, O_RDWR | O_APPEND | O_CLOEXEC);
}
ssize_t recv(int from, void *bytes, size_t size, int flags) { return read(from, bytes, size); }
ssize_t send(int to, const void *bytes, size_t size, int flags) { return write(to, bytes, size); }
int setsockopt(int socket, int level, int name, const void *value, socklen_t size) { return 0; }
int shutdown(int socket, int how) { return 0; }
