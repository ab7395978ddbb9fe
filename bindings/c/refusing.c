/* An allocator for the server: in its first conversation the first allocation is refused, in the second the second, and so on, until
 * there is none to be refused; then the server ends. Linked with --wrap=accept,--wrap=malloc,--wrap=realloc. */
#include <stdio.h>
#include <stdlib.h>
#include <sys/socket.h>

int __real_accept(int listener, struct sockaddr *from, socklen_t *len);
void *__real_malloc(size_t size);
void *__real_realloc(void *old, size_t size);

static long nth, count;

int __wrap_accept(int listener, struct sockaddr *from, socklen_t *len) {
  if (count < nth) {
    printf("each of %ld allocations was refused\n", nth - 1);
    exit(0);
  }
  int client = __real_accept(listener, from, len);
  nth++;
  count = 0;
  return client;
}

static int refused(void) { return ++count == nth; }

void *__wrap_malloc(size_t size) { return refused() ? NULL : __real_malloc(size); }

void *__wrap_realloc(void *old, size_t size) { return refused() ? NULL : __real_realloc(old, size); }
