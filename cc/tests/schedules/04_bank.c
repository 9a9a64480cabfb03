// Two tellers move money between accounts, each movement under a lock. An account is open once its balance stands.
// schedules: 2000
// tried: 34, all
#include <pthread.h>
#include <sched.h>
#include <stdio.h>
#include <stdlib.h>

struct account {
  int is_open, balance;
};
static struct account *accounts;
static pthread_mutex_t lock = PTHREAD_MUTEX_INITIALIZER;

static void *open_second(void *unused) {
#ifndef P1
  accounts[1].balance = 50;
  sched_yield();
  accounts[1].is_open = 1;
#else
  accounts[1].is_open = 1;
  sched_yield();
  accounts[1].balance = 50;
#endif
  return NULL;
}

static void *move(void *unused) {
  for (int k = 0; k < 2; k++) {
    pthread_mutex_lock(&lock);
    if (accounts[1].is_open && accounts[1].balance >= 10) { // P1: branch "accounts[1].is_open"
      accounts[1].balance -= 10;
      accounts[0].balance += 10;
    }
    pthread_mutex_unlock(&lock);
    sched_yield();
  }
  return NULL;
}

int main(void) {
  accounts = malloc(2 * sizeof *accounts); // P1 root
  accounts[0] = (struct account){1, 100};
  accounts[1].is_open = 0;
  pthread_t first, second;
  pthread_create(&first, NULL, open_second, NULL);
  pthread_create(&second, NULL, move, NULL);
  pthread_join(first, NULL);
  pthread_join(second, NULL);
  printf("%d\n", accounts[0].balance + accounts[1].balance);
  free(accounts);
  return 0;
}
