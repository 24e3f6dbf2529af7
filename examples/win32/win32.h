/* The synchronization and handle functions of Windows for the threads of one process of Linux: those of kernel32, narrow and wide, and the
 * same of ntdll, with the signatures and the names that Learn has. Source that was written for Windows includes it as <windows.h>.
 *
 * WCHAR has 16 bits: L"text" is of that kind by -fshort-wchar, and u"text" always. The functions have the calling convention of Windows,
 * as do the routines that they are passed, which must be declared WINAPI, CALLBACK or NTAPI. What Learn says of each function isn't
 * repeated here; docs/DEPARTURES.md has where the answers leave Windows. */
#ifndef WIN32_H
#define WIN32_H

#include <stddef.h>
#include <stdint.h>

#define WINAPI __attribute__((ms_abi))
#define NTAPI WINAPI
#define CALLBACK WINAPI
#define APIENTRY WINAPI

#define TRUE 1
#define FALSE 0
#define VOID void
#define CONST const

typedef int BOOL;
typedef char CHAR;
typedef int32_t LONG, NTSTATUS;
typedef int64_t LONGLONG;
typedef uint8_t BYTE, BOOLEAN;
typedef uint16_t WORD, USHORT, WCHAR;
typedef uint32_t DWORD, ULONG, UINT, ACCESS_MASK;
typedef uint64_t ULONGLONG, DWORD64;
typedef uintptr_t ULONG_PTR, DWORD_PTR, SIZE_T;
typedef intptr_t LONG_PTR;
typedef void *HANDLE, *LPVOID, *PVOID;
typedef const void *LPCVOID;
typedef HANDLE *PHANDLE, *LPHANDLE;
typedef BOOL *PBOOL, *LPBOOL;
typedef BOOLEAN *PBOOLEAN;
typedef LONG *PLONG, *LPLONG;
typedef ULONG *PULONG;
typedef DWORD *PDWORD, *LPDWORD;
typedef CHAR *LPSTR;
typedef WCHAR *PWSTR, *LPWSTR;
typedef const CHAR *LPCSTR;
typedef const WCHAR *PCWSTR, *LPCWSTR;

typedef union LARGE_INTEGER {
    struct {
        DWORD LowPart;
        LONG HighPart;
    };
    struct {
        DWORD LowPart;
        LONG HighPart;
    } u;
    LONGLONG QuadPart;
} LARGE_INTEGER, *PLARGE_INTEGER;

typedef struct FILETIME {
    DWORD dwLowDateTime, dwHighDateTime;
} FILETIME, *PFILETIME, *LPFILETIME;

/* ---- Numbers ---- */

#define INFINITE 0xFFFFFFFFu
#define MAXIMUM_WAIT_OBJECTS 64
#define WAIT_OBJECT_0 0u
#define WAIT_ABANDONED 0x80u
#define WAIT_ABANDONED_0 0x80u
#define WAIT_IO_COMPLETION 0xC0u
#define WAIT_TIMEOUT 258u
#define WAIT_FAILED 0xFFFFFFFFu
#define STILL_ACTIVE 259u
#define MAX_PATH 260
#define INVALID_HANDLE_VALUE ((HANDLE)(LONG_PTR)-1)

#define ERROR_SUCCESS 0u
#define ERROR_FILE_NOT_FOUND 2u
#define ERROR_PATH_NOT_FOUND 3u
#define ERROR_ACCESS_DENIED 5u
#define ERROR_INVALID_HANDLE 6u
#define ERROR_NOT_ENOUGH_MEMORY 8u
#define ERROR_GEN_FAILURE 31u
#define ERROR_INVALID_PARAMETER 87u
#define ERROR_CALL_NOT_IMPLEMENTED 120u
#define ERROR_INVALID_NAME 123u
#define ERROR_BAD_PATHNAME 161u
#define ERROR_ALREADY_EXISTS 183u
#define ERROR_FILENAME_EXCED_RANGE 206u
#define ERROR_NOT_OWNER 288u
#define ERROR_TOO_MANY_POSTS 298u
#define ERROR_IO_PENDING 997u
#define ERROR_NOACCESS 998u
#define ERROR_PRIVILEGE_NOT_HELD 1314u
#define ERROR_NO_SYSTEM_RESOURCES 1450u
#define ERROR_NOT_SAME_OBJECT 1656u

#define DELETE 0x00010000u
#define READ_CONTROL 0x00020000u
#define WRITE_DAC 0x00040000u
#define WRITE_OWNER 0x00080000u
#define SYNCHRONIZE 0x00100000u
#define STANDARD_RIGHTS_REQUIRED 0x000F0000u
#define ACCESS_SYSTEM_SECURITY 0x01000000u
#define MAXIMUM_ALLOWED 0x02000000u
#define GENERIC_ALL 0x10000000u
#define GENERIC_EXECUTE 0x20000000u
#define GENERIC_WRITE 0x40000000u
#define GENERIC_READ 0x80000000u
#define EVENT_QUERY_STATE 0x0001u
#define EVENT_MODIFY_STATE 0x0002u
#define EVENT_ALL_ACCESS 0x001F0003u
#define MUTANT_QUERY_STATE 0x0001u
#define MUTEX_MODIFY_STATE 0x0001u
#define MUTEX_ALL_ACCESS 0x001F0001u
#define MUTANT_ALL_ACCESS 0x001F0001u
#define SEMAPHORE_QUERY_STATE 0x0001u
#define SEMAPHORE_MODIFY_STATE 0x0002u
#define SEMAPHORE_ALL_ACCESS 0x001F0003u
#define TIMER_QUERY_STATE 0x0001u
#define TIMER_MODIFY_STATE 0x0002u
#define TIMER_ALL_ACCESS 0x001F0003u
#define JOB_OBJECT_ALL_ACCESS 0x001F003Fu
#define SECTION_ALL_ACCESS 0x000F001Fu
#define FILE_MAP_COPY 0x0001u
#define FILE_MAP_WRITE 0x0002u
#define FILE_MAP_READ 0x0004u
#define FILE_MAP_ALL_ACCESS SECTION_ALL_ACCESS
#define PAGE_READONLY 0x02u
#define PAGE_READWRITE 0x04u
#define PAGE_WRITECOPY 0x08u
#define PAGE_EXECUTE_READ 0x20u
#define PAGE_EXECUTE_READWRITE 0x40u
#define PAGE_EXECUTE_WRITECOPY 0x80u
#define THREAD_TERMINATE 0x0001u
#define THREAD_SUSPEND_RESUME 0x0002u
#define THREAD_SET_CONTEXT 0x0010u
#define THREAD_QUERY_INFORMATION 0x0040u
#define THREAD_QUERY_LIMITED_INFORMATION 0x0800u
#define THREAD_ALL_ACCESS 0x001FFFFFu
#define PROCESS_TERMINATE 0x0001u
#define PROCESS_DUP_HANDLE 0x0040u
#define PROCESS_QUERY_INFORMATION 0x0400u
#define PROCESS_QUERY_LIMITED_INFORMATION 0x1000u
#define PROCESS_ALL_ACCESS 0x001FFFFFu

#define CREATE_EVENT_MANUAL_RESET 1u
#define CREATE_EVENT_INITIAL_SET 2u
#define CREATE_MUTEX_INITIAL_OWNER 1u
#define CREATE_WAITABLE_TIMER_MANUAL_RESET 1u
#define CREATE_SUSPENDED 4u
#define HANDLE_FLAG_INHERIT 1u
#define HANDLE_FLAG_PROTECT_FROM_CLOSE 2u
#define DUPLICATE_CLOSE_SOURCE 1u
#define DUPLICATE_SAME_ACCESS 2u
#define DUPLICATE_SAME_ATTRIBUTES 4u

/* ---- kernel32: what is passed ---- */

typedef struct SECURITY_ATTRIBUTES {
    DWORD nLength;
    LPVOID lpSecurityDescriptor; /* its discretionary list, if it has one, says what opens of the new object may get */
    BOOL bInheritHandle;
} SECURITY_ATTRIBUTES, *PSECURITY_ATTRIBUTES, *LPSECURITY_ATTRIBUTES;

typedef DWORD(WINAPI *LPTHREAD_START_ROUTINE)(LPVOID);
typedef void(WINAPI *PAPCFUNC)(ULONG_PTR);
typedef void(WINAPI *PTIMERAPCROUTINE)(LPVOID, DWORD, DWORD);

/* ---- kernel32: events, mutexes, semaphores ---- */

HANDLE WINAPI CreateEventA(LPSECURITY_ATTRIBUTES attributes, BOOL manual, BOOL set, LPCSTR name);
HANDLE WINAPI CreateEventW(LPSECURITY_ATTRIBUTES attributes, BOOL manual, BOOL set, LPCWSTR name);
HANDLE WINAPI CreateEventExA(LPSECURITY_ATTRIBUTES attributes, LPCSTR name, DWORD flags, DWORD access);
HANDLE WINAPI CreateEventExW(LPSECURITY_ATTRIBUTES attributes, LPCWSTR name, DWORD flags, DWORD access);
HANDLE WINAPI OpenEventA(DWORD access, BOOL inherit, LPCSTR name);
HANDLE WINAPI OpenEventW(DWORD access, BOOL inherit, LPCWSTR name);
BOOL WINAPI PulseEvent(HANDLE event);
BOOL WINAPI ResetEvent(HANDLE event);
BOOL WINAPI SetEvent(HANDLE event);

HANDLE WINAPI CreateMutexA(LPSECURITY_ATTRIBUTES attributes, BOOL owned, LPCSTR name);
HANDLE WINAPI CreateMutexW(LPSECURITY_ATTRIBUTES attributes, BOOL owned, LPCWSTR name);
HANDLE WINAPI CreateMutexExA(LPSECURITY_ATTRIBUTES attributes, LPCSTR name, DWORD flags, DWORD access);
HANDLE WINAPI CreateMutexExW(LPSECURITY_ATTRIBUTES attributes, LPCWSTR name, DWORD flags, DWORD access);
HANDLE WINAPI OpenMutexA(DWORD access, BOOL inherit, LPCSTR name);
HANDLE WINAPI OpenMutexW(DWORD access, BOOL inherit, LPCWSTR name);
BOOL WINAPI ReleaseMutex(HANDLE mutex);

HANDLE WINAPI CreateSemaphoreA(LPSECURITY_ATTRIBUTES attributes, LONG initial, LONG most, LPCSTR name);
HANDLE WINAPI CreateSemaphoreW(LPSECURITY_ATTRIBUTES attributes, LONG initial, LONG most, LPCWSTR name);
HANDLE WINAPI CreateSemaphoreExA(LPSECURITY_ATTRIBUTES attributes, LONG initial, LONG most, LPCSTR name, DWORD flags, DWORD access);
HANDLE WINAPI CreateSemaphoreExW(LPSECURITY_ATTRIBUTES attributes, LONG initial, LONG most, LPCWSTR name, DWORD flags, DWORD access);
HANDLE WINAPI OpenSemaphoreA(DWORD access, BOOL inherit, LPCSTR name);
HANDLE WINAPI OpenSemaphoreW(DWORD access, BOOL inherit, LPCWSTR name);
BOOL WINAPI ReleaseSemaphore(HANDLE semaphore, LONG count, LPLONG previous);

/* ---- kernel32: waitable timers ---- */

BOOL WINAPI CancelWaitableTimer(HANDLE timer);
HANDLE WINAPI CreateWaitableTimerA(LPSECURITY_ATTRIBUTES attributes, BOOL manual, LPCSTR name);
HANDLE WINAPI CreateWaitableTimerW(LPSECURITY_ATTRIBUTES attributes, BOOL manual, LPCWSTR name);
HANDLE WINAPI CreateWaitableTimerExA(LPSECURITY_ATTRIBUTES attributes, LPCSTR name, DWORD flags, DWORD access);
HANDLE WINAPI CreateWaitableTimerExW(LPSECURITY_ATTRIBUTES attributes, LPCWSTR name, DWORD flags, DWORD access);
HANDLE WINAPI OpenWaitableTimerA(DWORD access, BOOL inherit, LPCSTR name);
HANDLE WINAPI OpenWaitableTimerW(DWORD access, BOOL inherit, LPCWSTR name);
BOOL WINAPI SetWaitableTimer(HANDLE timer, const LARGE_INTEGER *due, LONG period, PTIMERAPCROUTINE routine, LPVOID argument, BOOL resume);
BOOL WINAPI SetWaitableTimerEx(HANDLE timer, const LARGE_INTEGER *due, LONG period, PTIMERAPCROUTINE routine, LPVOID argument, void *context,
                               ULONG tolerance);

/* ---- kernel32: waits, and procedure calls ---- */

DWORD WINAPI QueueUserAPC(PAPCFUNC routine, HANDLE thread, ULONG_PTR argument);
DWORD WINAPI SignalObjectAndWait(HANDLE signal, HANDLE wait, DWORD milliseconds, BOOL alertable);
void WINAPI Sleep(DWORD milliseconds);
DWORD WINAPI SleepEx(DWORD milliseconds, BOOL alertable);
DWORD WINAPI WaitForMultipleObjects(DWORD count, const HANDLE *handles, BOOL all, DWORD milliseconds);
DWORD WINAPI WaitForMultipleObjectsEx(DWORD count, const HANDLE *handles, BOOL all, DWORD milliseconds, BOOL alertable);
DWORD WINAPI WaitForSingleObject(HANDLE handle, DWORD milliseconds);
DWORD WINAPI WaitForSingleObjectEx(HANDLE handle, DWORD milliseconds, BOOL alertable);

/* ---- kernel32: handles ---- */

BOOL WINAPI CloseHandle(HANDLE handle);
BOOL WINAPI CompareObjectHandles(HANDLE one, HANDLE other);
BOOL WINAPI DuplicateHandle(HANDLE source, HANDLE handle, HANDLE target, LPHANDLE made, DWORD access, BOOL inherit, DWORD options);
BOOL WINAPI GetHandleInformation(HANDLE handle, LPDWORD flags);
BOOL WINAPI SetHandleInformation(HANDLE handle, DWORD mask, DWORD flags);

/* ---- kernel32: threads, and the process ---- */

HANDLE WINAPI CreateThread(LPSECURITY_ATTRIBUTES attributes, SIZE_T stack, LPTHREAD_START_ROUTINE start, LPVOID argument, DWORD flags, LPDWORD id);
void WINAPI ExitProcess(UINT code) __attribute__((noreturn));
void WINAPI ExitThread(DWORD code) __attribute__((noreturn));
HANDLE WINAPI GetCurrentProcess(void);
DWORD WINAPI GetCurrentProcessId(void);
HANDLE WINAPI GetCurrentThread(void);
DWORD WINAPI GetCurrentThreadId(void);
BOOL WINAPI GetExitCodeProcess(HANDLE process, LPDWORD code);
BOOL WINAPI GetExitCodeThread(HANDLE thread, LPDWORD code);
DWORD WINAPI GetProcessId(HANDLE process);
DWORD WINAPI GetThreadId(HANDLE thread);
HANDLE WINAPI OpenProcess(DWORD access, BOOL inherit, DWORD id);
HANDLE WINAPI OpenThread(DWORD access, BOOL inherit, DWORD id);
DWORD WINAPI ResumeThread(HANDLE thread);
BOOL WINAPI SwitchToThread(void);
BOOL WINAPI TerminateProcess(HANDLE process, UINT code);
BOOL WINAPI TerminateThread(HANDLE thread, DWORD code);

/* ---- kernel32: file mappings and jobs, by their handles and names alone ---- */

HANDLE WINAPI CreateFileMappingA(HANDLE file, LPSECURITY_ATTRIBUTES attributes, DWORD protect, DWORD high, DWORD low, LPCSTR name);
HANDLE WINAPI CreateFileMappingW(HANDLE file, LPSECURITY_ATTRIBUTES attributes, DWORD protect, DWORD high, DWORD low, LPCWSTR name);
HANDLE WINAPI CreateJobObjectA(LPSECURITY_ATTRIBUTES attributes, LPCSTR name);
HANDLE WINAPI CreateJobObjectW(LPSECURITY_ATTRIBUTES attributes, LPCWSTR name);
HANDLE WINAPI OpenFileMappingA(DWORD access, BOOL inherit, LPCSTR name);
HANDLE WINAPI OpenFileMappingW(DWORD access, BOOL inherit, LPCWSTR name);
HANDLE WINAPI OpenJobObjectA(DWORD access, BOOL inherit, LPCSTR name);
HANDLE WINAPI OpenJobObjectW(DWORD access, BOOL inherit, LPCWSTR name);

/* ---- kernel32: errors, and the time ---- */

DWORD WINAPI GetLastError(void);
void WINAPI SetLastError(DWORD error);
void WINAPI GetSystemTimeAsFileTime(LPFILETIME time);
DWORD WINAPI GetTickCount(void);
ULONGLONG WINAPI GetTickCount64(void);

/* ---- ntdll: numbers, and what is passed ---- */

#define STATUS_SUCCESS ((NTSTATUS)0)
#define STATUS_USER_APC ((NTSTATUS)0xC0)
#define STATUS_TIMEOUT ((NTSTATUS)0x102)
#define STATUS_OBJECT_NAME_EXISTS ((NTSTATUS)0x40000000)
#define STATUS_NO_MORE_ENTRIES ((NTSTATUS)0x8000001A)
#define STATUS_UNSUCCESSFUL ((NTSTATUS)0xC0000001)
#define STATUS_NOT_IMPLEMENTED ((NTSTATUS)0xC0000002)
#define STATUS_INVALID_INFO_CLASS ((NTSTATUS)0xC0000003)
#define STATUS_INFO_LENGTH_MISMATCH ((NTSTATUS)0xC0000004)
#define STATUS_ACCESS_VIOLATION ((NTSTATUS)0xC0000005)
#define STATUS_INVALID_HANDLE ((NTSTATUS)0xC0000008)
#define STATUS_INVALID_CID ((NTSTATUS)0xC000000B)
#define STATUS_INVALID_PARAMETER ((NTSTATUS)0xC000000D)
#define STATUS_ACCESS_DENIED ((NTSTATUS)0xC0000022)
#define STATUS_OBJECT_TYPE_MISMATCH ((NTSTATUS)0xC0000024)
#define STATUS_INVALID_PARAMETER_MIX ((NTSTATUS)0xC0000030)
#define STATUS_OBJECT_NAME_INVALID ((NTSTATUS)0xC0000033)
#define STATUS_OBJECT_NAME_NOT_FOUND ((NTSTATUS)0xC0000034)
#define STATUS_OBJECT_NAME_COLLISION ((NTSTATUS)0xC0000035)
#define STATUS_OBJECT_PATH_NOT_FOUND ((NTSTATUS)0xC000003A)
#define STATUS_OBJECT_PATH_SYNTAX_BAD ((NTSTATUS)0xC000003B)
#define STATUS_PRIVILEGE_NOT_HELD ((NTSTATUS)0xC0000061)
#define STATUS_DATATYPE_MISALIGNMENT ((NTSTATUS)0x80000002)
#define STATUS_NOT_SAME_OBJECT ((NTSTATUS)0xC00001AC)
#define STATUS_HANDLE_NOT_CLOSABLE ((NTSTATUS)0xC0000235)

#define OBJ_INHERIT 0x02u
#define OBJ_PROTECT_CLOSE 0x01u /* as SystemHandleInformation tells it */
#define OBJ_CASE_INSENSITIVE 0x40u
#define OBJ_OPENIF 0x80u

typedef struct UNICODE_STRING {
    USHORT Length, MaximumLength; /* in bytes */
    PWSTR Buffer;
} UNICODE_STRING, *PUNICODE_STRING;

typedef struct OBJECT_ATTRIBUTES {
    ULONG Length;
    HANDLE RootDirectory;
    PUNICODE_STRING ObjectName;
    ULONG Attributes;
    PVOID SecurityDescriptor;
    PVOID SecurityQualityOfService;
} OBJECT_ATTRIBUTES, *POBJECT_ATTRIBUTES;

typedef struct CLIENT_ID {
    HANDLE UniqueProcess, UniqueThread;
} CLIENT_ID, *PCLIENT_ID;

typedef enum EVENT_TYPE { NotificationEvent, SynchronizationEvent } EVENT_TYPE;
typedef enum TIMER_TYPE { NotificationTimer, SynchronizationTimer } TIMER_TYPE;

typedef struct EVENT_BASIC_INFORMATION {
    EVENT_TYPE EventType;
    LONG EventState;
} EVENT_BASIC_INFORMATION;

typedef struct MUTANT_BASIC_INFORMATION {
    LONG CurrentCount;
    BOOLEAN OwnedByCaller, AbandonedState;
} MUTANT_BASIC_INFORMATION;

typedef struct SEMAPHORE_BASIC_INFORMATION {
    ULONG CurrentCount, MaximumCount;
} SEMAPHORE_BASIC_INFORMATION;

typedef struct TIMER_BASIC_INFORMATION {
    LARGE_INTEGER RemainingTime;
    BOOLEAN TimerState;
} TIMER_BASIC_INFORMATION;

/* The classes of NtQueryObject and NtQuerySystemInformation that are answered. */
enum { ObjectBasicInformation = 0, ObjectNameInformation = 1, ObjectTypeInformation = 2 };
enum { SystemHandleInformation = 16, SystemExtendedHandleInformation = 64 };

typedef struct OBJECT_BASIC_INFORMATION {
    ULONG Attributes;
    ACCESS_MASK GrantedAccess;
    ULONG HandleCount, PointerCount, Reserved[10];
} OBJECT_BASIC_INFORMATION;

typedef struct OBJECT_NAME_INFORMATION {
    UNICODE_STRING Name;
} OBJECT_NAME_INFORMATION;

typedef struct OBJECT_TYPE_INFORMATION {
    UNICODE_STRING TypeName;
    ULONG Reserved[22];
} OBJECT_TYPE_INFORMATION;

typedef struct SYSTEM_HANDLE_TABLE_ENTRY_INFO {
    ULONG UniqueProcessId;
    BYTE ObjectTypeIndex, HandleAttributes;
    USHORT HandleValue;
    PVOID Object;
    ULONG GrantedAccess;
} SYSTEM_HANDLE_TABLE_ENTRY_INFO;

typedef struct SYSTEM_HANDLE_INFORMATION {
    ULONG NumberOfHandles;
    SYSTEM_HANDLE_TABLE_ENTRY_INFO Handles[1];
} SYSTEM_HANDLE_INFORMATION;

typedef struct SYSTEM_HANDLE_TABLE_ENTRY_INFO_EX {
    PVOID Object;
    ULONG_PTR UniqueProcessId, HandleValue;
    ULONG GrantedAccess;
    USHORT CreatorBackTraceIndex, ObjectTypeIndex;
    ULONG HandleAttributes, Reserved;
} SYSTEM_HANDLE_TABLE_ENTRY_INFO_EX;

typedef struct SYSTEM_HANDLE_INFORMATION_EX {
    ULONG_PTR NumberOfHandles, Reserved;
    SYSTEM_HANDLE_TABLE_ENTRY_INFO_EX Handles[1];
} SYSTEM_HANDLE_INFORMATION_EX;

typedef void(NTAPI *PNTAPCFUNC)(ULONG_PTR, ULONG_PTR, ULONG_PTR);
typedef void(NTAPI *PTIMER_APC_ROUTINE)(PVOID, ULONG, LONG);

/* ---- ntdll: events, mutants, semaphores, timers ---- */

NTSTATUS NTAPI NtClearEvent(HANDLE event);
NTSTATUS NTAPI NtCreateEvent(PHANDLE made, ACCESS_MASK access, const OBJECT_ATTRIBUTES *attributes, EVENT_TYPE type, BOOLEAN set);
NTSTATUS NTAPI NtOpenEvent(PHANDLE opened, ACCESS_MASK access, const OBJECT_ATTRIBUTES *attributes);
NTSTATUS NTAPI NtPulseEvent(HANDLE event, PLONG previous);
NTSTATUS NTAPI NtQueryEvent(HANDLE event, ULONG what, PVOID told, ULONG length, PULONG written);
NTSTATUS NTAPI NtResetEvent(HANDLE event, PLONG previous);
NTSTATUS NTAPI NtSetEvent(HANDLE event, PLONG previous);

NTSTATUS NTAPI NtCreateMutant(PHANDLE made, ACCESS_MASK access, const OBJECT_ATTRIBUTES *attributes, BOOLEAN owned);
NTSTATUS NTAPI NtOpenMutant(PHANDLE opened, ACCESS_MASK access, const OBJECT_ATTRIBUTES *attributes);
NTSTATUS NTAPI NtQueryMutant(HANDLE mutant, ULONG what, PVOID told, ULONG length, PULONG written);
NTSTATUS NTAPI NtReleaseMutant(HANDLE mutant, PLONG previous);

NTSTATUS NTAPI NtCreateSemaphore(PHANDLE made, ACCESS_MASK access, const OBJECT_ATTRIBUTES *attributes, LONG initial, LONG most);
NTSTATUS NTAPI NtOpenSemaphore(PHANDLE opened, ACCESS_MASK access, const OBJECT_ATTRIBUTES *attributes);
NTSTATUS NTAPI NtQuerySemaphore(HANDLE semaphore, ULONG what, PVOID told, ULONG length, PULONG written);
NTSTATUS NTAPI NtReleaseSemaphore(HANDLE semaphore, ULONG count, PULONG previous);

NTSTATUS NTAPI NtCancelTimer(HANDLE timer, PBOOLEAN previous);
NTSTATUS NTAPI NtCreateTimer(PHANDLE made, ACCESS_MASK access, const OBJECT_ATTRIBUTES *attributes, TIMER_TYPE type);
NTSTATUS NTAPI NtOpenTimer(PHANDLE opened, ACCESS_MASK access, const OBJECT_ATTRIBUTES *attributes);
NTSTATUS NTAPI NtQueryTimer(HANDLE timer, ULONG what, PVOID told, ULONG length, PULONG written);
NTSTATUS NTAPI NtSetTimer(HANDLE timer, const LARGE_INTEGER *due, PTIMER_APC_ROUTINE routine, PVOID argument, BOOLEAN resume, LONG period,
                          PBOOLEAN previous);

/* ---- ntdll: waits, and procedure calls. A moment is since 1601, or below 0 so many units of 100 ns from now; no moment is for ever. ---- */

NTSTATUS NTAPI NtDelayExecution(BOOLEAN alertable, const LARGE_INTEGER *until);
NTSTATUS NTAPI NtQuerySystemTime(PLARGE_INTEGER time);
NTSTATUS NTAPI NtQueueApcThread(HANDLE thread, PNTAPCFUNC routine, ULONG_PTR one, ULONG_PTR two, ULONG_PTR three);
NTSTATUS NTAPI NtSignalAndWaitForSingleObject(HANDLE signal, HANDLE wait, BOOLEAN alertable, const LARGE_INTEGER *until);
NTSTATUS NTAPI NtTestAlert(void);
NTSTATUS NTAPI NtWaitForMultipleObjects(ULONG count, const HANDLE *handles, BOOLEAN any, BOOLEAN alertable, const LARGE_INTEGER *until);
NTSTATUS NTAPI NtWaitForSingleObject(HANDLE handle, BOOLEAN alertable, const LARGE_INTEGER *until);
NTSTATUS NTAPI NtYieldExecution(void);

/* ---- ntdll: handles, and what else has a name ---- */

NTSTATUS NTAPI NtClose(HANDLE handle);
NTSTATUS NTAPI NtCompareObjects(HANDLE one, HANDLE other);
NTSTATUS NTAPI NtDuplicateObject(HANDLE source, HANDLE handle, HANDLE target, PHANDLE made, ACCESS_MASK access, ULONG attributes, ULONG options);
NTSTATUS NTAPI NtGetNextThread(HANDLE process, HANDLE thread, ACCESS_MASK access, ULONG attributes, ULONG flags, PHANDLE next);
NTSTATUS NTAPI NtOpenProcess(PHANDLE opened, ACCESS_MASK access, const OBJECT_ATTRIBUTES *attributes, const CLIENT_ID *id);
NTSTATUS NTAPI NtQueryObject(HANDLE handle, ULONG what, PVOID told, ULONG length, PULONG written);
NTSTATUS NTAPI NtQuerySystemInformation(ULONG what, PVOID told, ULONG length, PULONG written);

NTSTATUS NTAPI NtCreateDebugObject(PHANDLE made, ACCESS_MASK access, const OBJECT_ATTRIBUTES *attributes, ULONG flags);
NTSTATUS NTAPI NtCreateIoCompletion(PHANDLE made, ACCESS_MASK access, const OBJECT_ATTRIBUTES *attributes, ULONG threads);
NTSTATUS NTAPI NtCreateJobObject(PHANDLE made, ACCESS_MASK access, const OBJECT_ATTRIBUTES *attributes);
NTSTATUS NTAPI NtCreateKeyedEvent(PHANDLE made, ACCESS_MASK access, const OBJECT_ATTRIBUTES *attributes, ULONG flags);
NTSTATUS NTAPI NtCreateSection(PHANDLE made, ACCESS_MASK access, const OBJECT_ATTRIBUTES *attributes, const LARGE_INTEGER *size, ULONG protect,
                               ULONG flags, HANDLE file);
NTSTATUS NTAPI NtOpenDirectoryObject(PHANDLE opened, ACCESS_MASK access, const OBJECT_ATTRIBUTES *attributes);
NTSTATUS NTAPI NtOpenIoCompletion(PHANDLE opened, ACCESS_MASK access, const OBJECT_ATTRIBUTES *attributes);
NTSTATUS NTAPI NtOpenJobObject(PHANDLE opened, ACCESS_MASK access, const OBJECT_ATTRIBUTES *attributes);
NTSTATUS NTAPI NtOpenKeyedEvent(PHANDLE opened, ACCESS_MASK access, const OBJECT_ATTRIBUTES *attributes);
NTSTATUS NTAPI NtOpenSection(PHANDLE opened, ACCESS_MASK access, const OBJECT_ATTRIBUTES *attributes);
NTSTATUS NTAPI NtOpenSymbolicLinkObject(PHANDLE opened, ACCESS_MASK access, const OBJECT_ATTRIBUTES *attributes);
void NTAPI RtlInitUnicodeString(PUNICODE_STRING string, PCWSTR text);

/* ---- Text, and the names without a letter ---- */

#ifdef UNICODE
#define TEXT(text) L##text
#define WIN32_TEXT(name) name##W
#else
#define TEXT(text) text
#define WIN32_TEXT(name) name##A
#endif
#define CreateEvent WIN32_TEXT(CreateEvent)
#define CreateEventEx WIN32_TEXT(CreateEventEx)
#define CreateFileMapping WIN32_TEXT(CreateFileMapping)
#define CreateJobObject WIN32_TEXT(CreateJobObject)
#define CreateMutex WIN32_TEXT(CreateMutex)
#define CreateMutexEx WIN32_TEXT(CreateMutexEx)
#define CreateSemaphore WIN32_TEXT(CreateSemaphore)
#define CreateSemaphoreEx WIN32_TEXT(CreateSemaphoreEx)
#define CreateWaitableTimer WIN32_TEXT(CreateWaitableTimer)
#define CreateWaitableTimerEx WIN32_TEXT(CreateWaitableTimerEx)
#define OpenEvent WIN32_TEXT(OpenEvent)
#define OpenFileMapping WIN32_TEXT(OpenFileMapping)
#define OpenJobObject WIN32_TEXT(OpenJobObject)
#define OpenMutex WIN32_TEXT(OpenMutex)
#define OpenSemaphore WIN32_TEXT(OpenSemaphore)
#define OpenWaitableTimer WIN32_TEXT(OpenWaitableTimer)

#endif
