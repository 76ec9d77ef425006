/* What these tests need of the system, of Linux or of Windows, in C and C++. */
#ifndef SYSTEM_H
#define SYSTEM_H

#include <stdint.h>
#include <stdlib.h>
#ifdef _WIN32
#include <windows.h>
#else
#include <sys/mman.h>
#include <unistd.h>
#endif

/* so many bytes, which end at an inaccessible page; ends the program where there is no memory */
static void *guarded(size_t size) {
#ifdef _WIN32
    SYSTEM_INFO system;
    DWORD before;
    GetSystemInfo(&system);
    size_t page = system.dwPageSize, room = (size + page - 1) / page * page;
    uint8_t *at = (uint8_t *)VirtualAlloc(NULL, room + page, MEM_COMMIT | MEM_RESERVE, PAGE_READWRITE);
    int is_there = at && VirtualProtect(at + room, page, PAGE_NOACCESS, &before);
#else
    size_t page = (size_t)sysconf(_SC_PAGESIZE), room = (size + page - 1) / page * page;
    void *made = mmap(NULL, room + page, PROT_READ | PROT_WRITE, MAP_PRIVATE | MAP_ANONYMOUS, -1, 0);
    uint8_t *at = (uint8_t *)made;
    int is_there = made != MAP_FAILED && !mprotect(at + room, page, PROT_NONE);
#endif
    if (!is_there)
        exit(2);
    return at + room - size;
}

#endif
