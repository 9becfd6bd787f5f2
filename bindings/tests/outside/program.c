/* A program outside the repository, which has vx.h and its library as they are installed. */
#include <stdio.h>
#include <string.h>
#include <vx.h>

int main(void)
{
    char page[256];
    vx_answer answer;
    if (vx_version(page, sizeof page, &answer) != VX_ANSWERED || strncmp(page, VX_VERSION "\n", answer.needed) != 0)
        return 1;
    if (vx_check("x >= 1 and x <= 5", 17, "{x=i32?}", 8, page, sizeof page, &answer) != VX_ANSWERED)
        return 1;
    fwrite(page, 1, answer.needed, stdout);
    if (vx_check("x >= s", 6, "{x=i32, s=utf8}", 15, page, sizeof page, &answer) != VX_REFUSED)
        return 1;
    printf("bytes %zu to %zu\n", answer.place.start, answer.place.end);
}
