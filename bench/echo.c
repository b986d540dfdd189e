/* Writes one line for each line of a pipe that has `"sync"` in it: what answers cost where nothing is decided. echo PIPE */
#include <fcntl.h>
#include <string.h>
#include <unistd.h>

int main(int count, char **words) {
    static const char ANSWER[] = "{\"line\":1,\"generation\":0,\"verdict\":\"none\"}\n{\"line\":2,\"sync\":0}\n";
    static char text[1 << 16];
    int from = count == 2 ? open(words[1], O_RDONLY) : -1;
    ssize_t length;
    while ((length = read(from, text, sizeof text - 1)) > 0) {
        text[length] = 0;
        if (strstr(text, "\"sync\"") && write(1, ANSWER, sizeof ANSWER - 1) < 0)
            return 1;
    }
    return length < 0;
}
