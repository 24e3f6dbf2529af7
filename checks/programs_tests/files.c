/* Files in the folder of the program, by the C library and by kernel32: written, read, found, renamed, mapped, deleted; memory that has a name. */
#include <stdio.h>
#include <string.h>
#include <windows.h>

static void by_c(void) {
    char line[40];
    FILE *file = fopen("files.txt", "w+");
    fprintf(file, "first\nsecond\nthird\n");
    fseek(file, 7, SEEK_SET);
    printf("%s", fgets(line, sizeof line, file));
    fclose(file);
    file = fopen("files.txt", "ab");
    fputs("more", file);
    fclose(file);
    file = fopen("FILES.TXT", "rb");
    printf("%d bytes\n", (int)fread(line, 1, sizeof line, file));
    fclose(file);
    printf("missing %d\n", fopen("missing.txt", "r") == NULL);
}

static void by_kernel(void) {
    DWORD count;
    char text[16] = "";
    HANDLE file = CreateFileA("files.dat", GENERIC_READ | GENERIC_WRITE, 0, NULL, CREATE_ALWAYS, 0, NULL);
    WriteFile(file, "0123456789", 10, &count, NULL);
    printf("written %lu", count);
    SetFilePointer(file, 4, NULL, FILE_BEGIN);
    SetEndOfFile(file);
    SetFilePointer(file, -2, NULL, FILE_END);
    ReadFile(file, text, sizeof text, &count, NULL);
    printf(", read %lu %.2s, size %lu\n", count, text, GetFileSize(file, NULL));
    CloseHandle(file);
    file = CreateFileA("files.dat", GENERIC_READ, 0, NULL, OPEN_EXISTING, 0, NULL);
    printf("a write to read %d", WriteFile(file, "x", 1, &count, NULL));
    printf(", error %lu\n", GetLastError());
    HANDLE section = CreateFileMappingA(file, NULL, PAGE_READONLY, 0, 0, NULL);
    const char *view = MapViewOfFile(section, FILE_MAP_READ, 0, 0, 0);
    printf("mapped %.4s\n", view == NULL ? "none" : view);
    UnmapViewOfFile(view);
    CloseHandle(section);
    CloseHandle(file);
    file = CreateFileA("files.dat", GENERIC_READ, 0, NULL, CREATE_NEW, 0, NULL);
    printf("new %d, error %lu\n", file != INVALID_HANDLE_VALUE, GetLastError());
}

static void names(void) {
    WIN32_FIND_DATAA found;
    int count = 0;
    printf("folder %d", CreateDirectoryA("files_folder", NULL));
    printf(", again %d", CreateDirectoryA("files_folder", NULL));
    printf(", error %lu\n", GetLastError());
    printf("moved %d\n", MoveFileA("files.dat", "files_folder\\moved.dat"));
    HANDLE search = FindFirstFileA("files_folder\\*.dat", &found);
    for (BOOL is = search != INVALID_HANDLE_VALUE; is; is = FindNextFileA(search, &found)) {
        printf("found %s, %lu bytes\n", found.cFileName, found.nFileSizeLow);
        count++;
    }
    printf("%d, error %lu\n", count, GetLastError());
    FindClose(search);
    printf("a full folder %d", RemoveDirectoryA("files_folder"));
    printf(", deleted %d", DeleteFileA("files_folder\\moved.dat"));
    printf(" %d", DeleteFileA("files.txt"));
    printf(" %d\n", RemoveDirectoryA("files_folder"));
    printf("gone %d\n", GetFileAttributesA("files_folder") == INVALID_FILE_ATTRIBUTES);
}

static void shared(void) {
    HANDLE one = CreateFileMappingA(INVALID_HANDLE_VALUE, NULL, PAGE_READWRITE, 0, 0x10000, "files_memory");
    HANDLE other = OpenFileMappingA(FILE_MAP_READ, FALSE, "files_memory");
    char *to = MapViewOfFile(one, FILE_MAP_WRITE, 0, 0, 0), *from = MapViewOfFile(other, FILE_MAP_READ, 0, 0, 0);
    strcpy(to, "shared");
    printf("%s, at two places %d\n", from, to != from);
}

int main(void) {
    by_c();
    by_kernel();
    names();
    shared();
    return 0;
}
