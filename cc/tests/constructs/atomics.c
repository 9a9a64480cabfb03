// Atomic variables and the builtins on them, in one thread and in two.
// schedule: 000102
#include <pthread.h>
#include <stdatomic.h>
#include <stdio.h>
#include <stdlib.h>

static atomic_int counter;
static atomic_flag busy = ATOMIC_FLAG_INIT;
static _Atomic(long) sum = 5;
static void *work(void *argument) {
  for (int k = 0; k < 10; k++)
    atomic_fetch_add(&counter, *(int *)argument);
  return NULL;
}

int main(void) {
  int one = 1, ten = 10, expected = 110;
  pthread_t a, b;
  pthread_create(&a, NULL, work, &one);
  pthread_create(&b, NULL, work, &ten);
  pthread_join(a, NULL);
  pthread_join(b, NULL);
  printf("%d", atomic_compare_exchange_strong(&counter, &expected, 8));
  printf(" %d", atomic_compare_exchange_weak(&counter, &expected, 9));
  printf(" %d %d\n", expected, atomic_load(&counter));
  sum += 7;
  printf("%ld %ld", atomic_exchange(&sum, 3), (long)sum);
  printf(" %d %d\n", atomic_flag_test_and_set(&busy), atomic_flag_test_and_set(&busy));
  int plain = 12;
  __atomic_fetch_or(&plain, 3, __ATOMIC_SEQ_CST);
  __atomic_fetch_nand(&plain, 5, __ATOMIC_RELAXED);
  __sync_fetch_and_xor(&plain, 9);
  __sync_synchronize();
  atomic_thread_fence(memory_order_acquire);
  printf("%d %d\n", plain, __sync_bool_compare_and_swap(&plain, 1, 2));
#ifdef P1
  int *unset = malloc(sizeof *unset); // P1 root
  __atomic_fetch_or(unset, 8, __ATOMIC_SEQ_CST);
  if (__atomic_load_n(unset, __ATOMIC_SEQ_CST) & 4) // P1: branch "__atomic_load_n"
    puts("bits");
#endif
#ifdef P2
  atomic_int never;
  int want = 3;
  if (atomic_compare_exchange_strong(&never, &want, 4)) // P2: branch "atomic_compare_exchange_strong"
    puts("three");
#endif
  return 0;
}
