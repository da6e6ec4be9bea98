/*
 * What the program of pef_program.c asks of its machine: arguments, files, folders and streams, on POSIX and Windows. Numbers of errors, flags and
 * fields are those of Linux on x86-64, for which the program was built.
 */
#if !defined(_WIN32)
#define _POSIX_C_SOURCE 200809L
#define _FILE_OFFSET_BITS 64
#endif

#include <errno.h>
#include <fcntl.h>
#include <signal.h>
#include <stdint.h>
#include <stdlib.h>
#include <string.h>
#include <sys/stat.h>
#include <sys/types.h>
#if defined(_WIN32)
#include <io.h>
#include <windows.h>
#include <shellapi.h>
#if defined(_MSC_VER)
#pragma comment(lib, "shell32")
#endif
#else
#include <dirent.h>
#include <unistd.h>
#endif

/* What the program gives as an address is a pointer. */
#define AT(address) ((unsigned char *)(uintptr_t)(address))

/* The most bytes that one read or write of Linux takes. */
#define MOST_BYTES 0x7FFFF000u

uint32_t pef_main(void);

/* --- arguments --- */

static int argument_count;
static char **arguments;

/* Copies an argument to `to`. Returns its length; -1 if there is none; -2 if it is longer than `most`. */
uint64_t pef_host_rattle_arg(uint64_t number, uint64_t to, uint64_t most)
{
    size_t length;
    if (number >= (uint64_t)argument_count)
        return UINT64_MAX;
    length = strlen(arguments[number]);
    memcpy(AT(to), arguments[number], length < most ? length : (size_t)most);
    return length <= most ? length : UINT64_MAX - 1;
}

/* --- errors --- */

/* The error of the last call that failed, with its number on Linux. */
static int last_error;

/* Errors from 35 on have other numbers on other systems; macOS has another one for EAGAIN, too. */
static const struct {
    int here, on_linux;
} error_numbers[] = {
    {EAGAIN, 11}, {EDEADLK, 35}, {ENAMETOOLONG, 36}, {ENOSYS, 38}, {ENOTEMPTY, 39}, {EILSEQ, 84},
#ifdef ELOOP
    {ELOOP, 40},
#endif
#ifdef EOVERFLOW
    {EOVERFLOW, 75},
#endif
#ifdef ETIMEDOUT
    {ETIMEDOUT, 110},
#endif
#ifdef ESTALE
    {ESTALE, 116},
#endif
#ifdef EDQUOT
    {EDQUOT, 122},
#endif
};

/* Keeps the number of errno. One that Linux doesn't have is EIO. */
static void keep_error(void)
{
    const int count = (int)(sizeof error_numbers / sizeof error_numbers[0]);
    last_error = errno < 35 ? errno : 5;
    for (int i = 0; i < count; i++)
        if (error_numbers[i].here == errno)
            last_error = error_numbers[i].on_linux;
}

uint32_t pef_host_rattle_errno(void)
{
    return (uint32_t)last_error;
}

void pef_host_rattle_set_errno(uint32_t number)
{
    last_error = (int)number;
}

/* --- files and streams --- */

/* The result of a call that reads or writes. */
static uint64_t counted(int64_t result)
{
    if (result < 0)
        keep_error();
    return (uint64_t)result;
}

uint64_t pef_host_read(uint32_t file, uint64_t to, uint64_t length)
{
    return counted(read((int)file, AT(to), length < MOST_BYTES ? (unsigned)length : MOST_BYTES));
}

uint64_t pef_host_write(uint32_t file, uint64_t from, uint64_t length)
{
    return counted(write((int)file, AT(from), length < MOST_BYTES ? (unsigned)length : MOST_BYTES));
}

/* The flags of open(). The lowest two bits say whether a file is read or written, here as on Linux. */
static const struct {
    uint32_t on_linux;
    int here;
} open_flags[] = {
    {0100, O_CREAT}, {0200, O_EXCL}, {01000, O_TRUNC}, {02000, O_APPEND},
#if defined(_WIN32)
    {02000000, _O_NOINHERIT},
#else
    {04000, O_NONBLOCK}, {0200000, O_DIRECTORY}, {0400000, O_NOFOLLOW}, {02000000, O_CLOEXEC},
#endif
};

static int flags_here(uint32_t flags)
{
    const int count = (int)(sizeof open_flags / sizeof open_flags[0]);
    int here = (int)(flags & 3);
    for (int i = 0; i < count; i++)
        if (flags & open_flags[i].on_linux)
            here |= open_flags[i].here;
    return here;
}

#if defined(_WIN32)

/* A path of UTF-8 as Windows has it, or NULL with errno. It has to be freed. */
static wchar_t *wide_path(const char *path)
{
    const int length = MultiByteToWideChar(CP_UTF8, MB_ERR_INVALID_CHARS, path, -1, NULL, 0);
    wchar_t *wide = length ? malloc((size_t)length * sizeof *wide) : NULL;
    if (wide)
        MultiByteToWideChar(CP_UTF8, 0, path, -1, wide, length);
    else
        errno = length ? ENOMEM : ENOENT;
    return wide;
}

/* Opening a folder is another error on Windows. */
static int open_here(const char *path, int flags, uint32_t mode)
{
    wchar_t *wide = wide_path(path);
    const int file = wide ? _wopen(wide, flags | _O_BINARY, _S_IREAD | _S_IWRITE) : -1;
    (void)mode;
    if (wide && file < 0) {
        const int error = errno;
        const DWORD attributes = GetFileAttributesW(wide);
        errno = attributes != INVALID_FILE_ATTRIBUTES && attributes & FILE_ATTRIBUTE_DIRECTORY ? EISDIR : error;
    }
    free(wide);
    return file;
}

typedef struct _stat64 file_status;

static int status_of_path(const char *path, int follows_links, file_status *found)
{
    wchar_t *wide = wide_path(path);
    const int result = wide ? _wstat64(wide, found) : -1;
    (void)follows_links;
    free(wide);
    return result;
}

static int status_of_file(int file, file_status *found)
{
    return _fstat64(file, found);
}

/* A folder that is being read: its next entry, and that entry's name in UTF-8. */
struct folder {
    HANDLE search;
    WIN32_FIND_DATAW entry;
    int is_open, has_entry;
    char name[4 * MAX_PATH];
};

/* Files of a folder are found by a pattern. What is no folder has none. */
static int open_folder(struct folder *folder, const char *path)
{
    const size_t length = strlen(path);
    char *pattern = malloc(length + 3);
    wchar_t *wide;
    if (!pattern)
        return -1;
    memcpy(pattern, path, length);
    strcpy(pattern + length, length && (path[length - 1] == '/' || path[length - 1] == '\\') ? "*" : "/*");
    wide = wide_path(pattern);
    free(pattern);
    if (!wide)
        return -1;
    folder->search = FindFirstFileW(wide, &folder->entry);
    free(wide);
    folder->is_open = folder->has_entry = folder->search != INVALID_HANDLE_VALUE;
    errno = ENOENT;
    return folder->is_open ? 0 : -1;
}

static const char *next_name(struct folder *folder)
{
    if (!folder->has_entry)
        return NULL;
    WideCharToMultiByte(CP_UTF8, 0, folder->entry.cFileName, -1, folder->name, sizeof folder->name, NULL, NULL);
    return folder->name;
}

static void pass_entry(struct folder *folder)
{
    folder->has_entry = FindNextFileW(folder->search, &folder->entry);
}

static void close_folder(struct folder *folder)
{
    FindClose(folder->search);
    folder->is_open = 0;
}

#else

static int open_here(const char *path, int flags, uint32_t mode)
{
    return open(path, flags, (mode_t)mode);
}

typedef struct stat file_status;

static int status_of_path(const char *path, int follows_links, file_status *found)
{
    return follows_links ? stat(path, found) : lstat(path, found);
}

static int status_of_file(int file, file_status *found)
{
    return fstat(file, found);
}

/* A folder that is being read, and its next entry. */
struct folder {
    DIR *stream;
    struct dirent *entry;
    int is_open;
};

static int open_folder(struct folder *folder, const char *path)
{
    const int file = open(path, O_RDONLY | O_DIRECTORY | O_NOFOLLOW | O_CLOEXEC);
    if (file < 0)
        return -1;
    folder->stream = fdopendir(file);
    if (!folder->stream) {
        close(file);
        errno = ENOMEM;
        return -1;
    }
    folder->entry = readdir(folder->stream);
    folder->is_open = 1;
    return 0;
}

static const char *next_name(struct folder *folder)
{
    return folder->entry ? folder->entry->d_name : NULL;
}

static void pass_entry(struct folder *folder)
{
    folder->entry = readdir(folder->stream);
}

static void close_folder(struct folder *folder)
{
    closedir(folder->stream);
    folder->is_open = 0;
}

#endif

/* `more` is where the argument is that only a call with O_CREAT has: the mode of a new file. */
uint32_t pef_host_open(uint64_t path, uint32_t flags, uint64_t more)
{
    uint32_t mode = 0;
    int file;
    if (flags & 0100)
        memcpy(&mode, AT(more), sizeof mode);
    file = open_here((const char *)AT(path), flags_here(flags), mode);
    if (file < 0)
        keep_error();
    return (uint32_t)file;
}

static void put_field(uint64_t record, size_t offset, uint64_t value, size_t size)
{
    memcpy(AT(record) + offset, &value, size);
}

/* Fills a struct statx with what the program reads of it. `folder` is a file if the path is empty and may be; else the working folder. */
uint32_t pef_host_statx(uint32_t folder, uint64_t path, uint32_t flags, uint32_t mask, uint64_t to)
{
    const char *name = (const char *)AT(path);
    file_status found;
    const int is_file = flags & 0x1000 && !*name;
    const int result = is_file ? status_of_file((int)folder, &found) : status_of_path(name, !(flags & 0x100), &found);
    (void)mask;
    if (result) {
        keep_error();
        return UINT32_MAX;
    }
    memset(AT(to), 0, 256);
    put_field(to, 0, 0x307, 4);
    put_field(to, 16, (uint64_t)found.st_nlink, 4);
    put_field(to, 28, (uint64_t)found.st_mode, 2);
    put_field(to, 32, (uint64_t)found.st_ino, 8);
    put_field(to, 40, (uint64_t)found.st_size, 8);
    put_field(to, 136, (uint64_t)found.st_dev >> 8, 4);
    put_field(to, 140, (uint64_t)found.st_dev & 0xFF, 4);
    return 0;
}

/* --- folders --- */

/* Folders have numbers of their own, which no file has. */
#define FIRST_FOLDER 0x40000000u
#define MOST_FOLDERS 4

static struct folder folders[MOST_FOLDERS];

static struct folder *folder_of(uint32_t number)
{
    return number >= FIRST_FOLDER && number < FIRST_FOLDER + MOST_FOLDERS ? &folders[number - FIRST_FOLDER] : NULL;
}

/* The program opens folders by their paths alone: `from` is the working folder. */
uint32_t pef_host_rattle_open_dir_at(uint32_t from, uint64_t path)
{
    (void)from;
    errno = EMFILE;
    for (uint32_t i = 0; i < MOST_FOLDERS; i++)
        if (!folders[i].is_open) {
            if (open_folder(&folders[i], (const char *)AT(path)) == 0)
                return FIRST_FOLDER + i;
            break;
        }
    keep_error();
    return UINT32_MAX;
}

/* Fills in the next entries of a folder as Linux does: of a record the program reads its length, at byte 16, and the name from byte 19 on. */
uint64_t pef_host_getdents64(uint32_t number, uint64_t to, uint64_t most)
{
    struct folder *folder = folder_of(number);
    uint64_t written = 0;
    const char *name;
    if (!folder || !folder->is_open) {
        errno = EBADF;
        return counted(-1);
    }
    for (; (name = next_name(folder)) != NULL; pass_entry(folder)) {
        const uint64_t length = (19 + strlen(name) + 1 + 7) & ~(uint64_t)7;
        if (length > most - written)
            break;
        memset(AT(to + written), 0, (size_t)length);
        put_field(to + written, 16, length, 2);
        memcpy(AT(to + written) + 19, name, strlen(name));
        written += length;
    }
    if (name && !written) {
        errno = EINVAL;
        return counted(-1);
    }
    return written;
}

uint32_t pef_host_close(uint32_t file)
{
    struct folder *folder = folder_of(file);
    int result = 0;
    if (folder)
        close_folder(folder);
    else
        result = close((int)file);
    if (result < 0)
        keep_error();
    return (uint32_t)result;
}

/* The program asks once that writing to a pipe that nobody reads is an error, and no signal. */
uint64_t pef_host___sysv_signal(uint32_t number, uint64_t action)
{
#ifdef SIGPIPE
    if (number == 13 && action == 1)
        signal(SIGPIPE, SIG_IGN);
#endif
    (void)number, (void)action;
    return 0;
}

/* --- the start --- */

#if defined(_WIN32)

/* Windows has the arguments in UTF-16. Returns whether there was memory for them. */
static int take_arguments(void)
{
    wchar_t **wide = CommandLineToArgvW(GetCommandLineW(), &argument_count);
    arguments = wide ? calloc((size_t)argument_count + 1, sizeof *arguments) : NULL;
    for (int i = 0; arguments && i < argument_count; i++) {
        const int length = WideCharToMultiByte(CP_UTF8, 0, wide[i], -1, NULL, 0, NULL, NULL);
        arguments[i] = malloc((size_t)length);
        if (!arguments[i])
            return 0;
        WideCharToMultiByte(CP_UTF8, 0, wide[i], -1, arguments[i], length, NULL, NULL);
    }
    return arguments != NULL;
}

/* The program's own name, without its folder and .exe. */
static char *own_name(char *path)
{
    char *name = path;
    size_t length;
    for (; *path; path++)
        if (*path == '\\' || *path == '/')
            name = path + 1;
    length = strlen(name);
    if (length > 4 && !_stricmp(name + length - 4, ".exe"))
        name[length - 4] = 0;
    return name;
}

int main(void)
{
    if (!take_arguments())
        return 1;
    if (argument_count > 0)
        arguments[0] = own_name(arguments[0]);
    for (int stream = 0; stream < 3; stream++)
        _setmode(stream, _O_BINARY);
    return (int)pef_main();
}

#else

int main(int count, char **words)
{
    argument_count = count;
    arguments = words;
    return (int)pef_main();
}

#endif
