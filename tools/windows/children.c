/* The children: one for each `process` line, kept from script to script while they live. */
#include "real.h"

static struct { HANDLE process, to, from; } children[CHILDREN];

int child_start(int pid)
{
    SECURITY_ATTRIBUTES inherited = {sizeof inherited, NULL, TRUE};
    STARTUPINFOA how = {.cb = sizeof how, .dwFlags = STARTF_USESTDHANDLES};
    PROCESS_INFORMATION what;
    char program[MAX_PATH], command[MAX_PATH + 64];
    HANDLE in, to, from, out;
    number distance, end;
    if (children[pid].process)
        return 1;
    if (!CreatePipe(&in, &to, &inherited, 65536) || !CreatePipe(&from, &out, &inherited, 65536))
        return 0;
    SetHandleInformation(to, HANDLE_FLAG_INHERIT, 0);
    SetHandleInformation(from, HANDLE_FLAG_INHERIT, 0);
    how.hStdInput = in;
    how.hStdOutput = out;
    how.hStdError = GetStdHandle(STD_ERROR_HANDLE);
    GetModuleFileNameA(NULL, program, sizeof program);
    window_tell(&distance, &end);
    snprintf(command, sizeof command, "\"%s\" --child 0x%llX 0x%llX", program, distance, end);
    int started = CreateProcessA(program, command, NULL, NULL, TRUE, 0, NULL, NULL, &how, &what);
    CloseHandle(in);
    CloseHandle(out);
    if (!started) {
        CloseHandle(to);
        CloseHandle(from);
        return 0;
    }
    CloseHandle(what.hThread);
    children[pid].process = what.hProcess;
    children[pid].to = to;
    children[pid].from = from;
    return 1;
}

void child_stop(int pid)
{
    DWORD count;
    if (!children[pid].process)
        return;
    WriteFile(children[pid].to, "quit\n", 5, &count, NULL);
    CloseHandle(children[pid].to);
    if (WaitForSingleObject(children[pid].process, 5000) != WAIT_OBJECT_0) {
        TerminateProcess(children[pid].process, 0);
        WaitForSingleObject(children[pid].process, 5000);
    }
    CloseHandle(children[pid].from);
    CloseHandle(children[pid].process);
    memset(&children[pid], 0, sizeof children[pid]);
}

/* One line there, one back: 0 where the child has ended. */
int child_ask(int pid, const char *request, char *answer)
{
    DWORD count, have = 0;
    if (!children[pid].process || !WriteFile(children[pid].to, request, (DWORD)strlen(request), &count, NULL))
        return 0;
    while (have < ANSWER - 1) {
        if (!ReadFile(children[pid].from, answer + have, ANSWER - 1 - have, &count, NULL) || count == 0)
            return 0;
        have += count;
        if (answer[have - 1] == '\n') {
            answer[have - 1] = 0;
            return 1;
        }
    }
    return 0;
}

int child_reset(int pid, const char *tag)
{
    char request[128], answer[ANSWER];
    snprintf(request, sizeof request, "anew %s\n", tag);
    if (child_ask(pid, request, answer) && !strcmp(answer, "ok"))
        return 1;
    child_stop(pid);
    return 0;
}

void children_reset(const char *tag)
{
    for (int pid = 0; pid < CHILDREN; pid++)
        if (children[pid].process)
            child_reset(pid, tag);
}

void children_stop(void)
{
    for (int pid = 0; pid < CHILDREN; pid++)
        child_stop(pid);
}
