/* Apache-2.0. The first process: workloads on interrupts, then virtual machines (machines.c). The
 * kernel's command line has `workloads=NAME,NAME..`, `seed=N` and `scale=N`. */
#define _GNU_SOURCE
#include <errno.h>
#include <fcntl.h>
#include <pthread.h>
#include <sched.h>
#include <signal.h>
#include <stdio.h>
#include <stdlib.h>
#include <string.h>
#include <sys/mman.h>
#include <sys/mount.h>
#include <sys/reboot.h>
#include <sys/stat.h>
#include <sys/syscall.h>
#include <sys/wait.h>
#include <unistd.h>
#include <linux/kvm.h>
#include <linux/membarrier.h>
#include "small.h"

#define HARTS 2
#define BLOCK 4096
#define TELL_WORKLOAD (0xf00 / 4)

volatile uint32_t *page;
static uint64_t seed = 1;
static int scale = 10;

uint32_t drawn(void)
{
	seed = seed * 6364136223846793005UL + 1442695040888963407UL;
	return seed >> 33;
}

void pin(int thread, int hart)	/* to one hart, or to any */
{
	cpu_set_t set;
	int one;

	CPU_ZERO(&set);
	for (one = 0; one < HARTS; one++)
		if (hart < 0 || one == hart)
			CPU_SET(one, &set);
	if (sched_setaffinity(thread, sizeof set, &set) < 0 && errno != ESRCH)
		printf("affinity of %d: %s\n", thread, strerror(errno));
}

void put(const char *file, const char *text)
{
	int to = open(file, O_WRONLY);

	if (to < 0 || write(to, text, strlen(text)) < 0)
		printf("%s to %s: %s\n", text, file, strerror(errno));
	if (to >= 0)
		close(to);
}

static void show(const char *file)
{
	char text[4096];
	int from = open(file, O_RDONLY), count;

	while (from >= 0 && (count = read(from, text, sizeof text)) > 0)
		fwrite(text, 1, count, stdout);
	if (from >= 0)
		close(from);
	fflush(stdout);
}

static char *block(void)
{
	void *made = NULL;

	if (posix_memalign(&made, BLOCK, BLOCK))
		abort();
	memset(made, 1, BLOCK);
	return made;
}

/* A disk read and written by a process on each hart. */
static void disk(const char *name, int count)
{
	int hart, one;

	for (hart = 0; hart < HARTS; hart++)
		if (!fork()) {
			int device = open(name, O_RDWR | O_DIRECT);
			char *bytes = block();

			pin(0, hart);
			if (device < 0)
				printf("%s: %s\n", name, strerror(errno));
			for (one = 0; device >= 0 && one < count; one++) {
				off_t place = BLOCK * (drawn() % 200);

				if ((one & 1 ? pwrite(device, bytes, BLOCK, place)
				     : pread(device, bytes, BLOCK, place)) < 0)
					printf("%s: %s\n", name, strerror(errno));
			}
			_exit(0);
		}
	for (hart = 0; hart < HARTS; hart++)
		wait(NULL);
}

static void *spins(void *stop)
{
	while (!*(volatile int *)stop)
		;
	return NULL;
}

/* Pipes between the harts, barriers, and memory that is unmapped under a thread of the other. */
static void ipis(int count)
{
	int there[2], back[2], one, stop = 0;
	char byte = 0;
	pthread_t thread;

	if (pipe(there) || pipe(back))
		abort();
	if (!fork()) {
		pin(0, 1);
		for (one = 0; one < count; one++)
			if (read(there[0], &byte, 1) != 1 || write(back[1], &byte, 1) != 1)
				break;
		_exit(0);
	}
	pin(0, 0);
	for (one = 0; one < count; one++)
		if (write(there[1], &byte, 1) != 1 || read(back[0], &byte, 1) != 1)
			break;
	wait(NULL);
	syscall(SYS_membarrier, MEMBARRIER_CMD_REGISTER_GLOBAL_EXPEDITED, 0, 0);
	pthread_create(&thread, NULL, spins, &stop);
	for (one = 0; one < count / 8; one++) {
		char *bytes = mmap(NULL, 4 * BLOCK, PROT_READ | PROT_WRITE,
				   MAP_PRIVATE | MAP_ANONYMOUS, -1, 0);

		memset(bytes, 1, 4 * BLOCK);
		munmap(bytes, 4 * BLOCK);
		syscall(SYS_membarrier, MEMBARRIER_CMD_GLOBAL_EXPEDITED, 0, 0);
	}
	stop = 1;
	pthread_join(thread, NULL);
	for (one = 0; one < 2; one++) {
		close(there[one]);
		close(back[one]);
	}
	pin(0, -1);
}

/* The interrupts whose line of /proc/interrupts has a word go from hart to hart under a load. */
static void moved(const char *word, const char *load, int count, int is_disk)
{
	char line[512], file[64];
	int numbers[16], found = 0, one;
	FILE *list = fopen("/proc/interrupts", "r");
	pid_t child;

	while (list && found < 16 && fgets(line, sizeof line, list))
		if (strstr(line, word) && sscanf(line, " %d:", &numbers[found]) == 1)
			found++;
	if (list)
		fclose(list);
	printf("%d interrupts of %s\n", found, word);
	if (!found)
		return;
	child = fork();
	if (!child) {
		int device = open(load, O_RDONLY | (is_disk ? O_DIRECT : 0));
		char *bytes = block();

		for (one = 0; device >= 0; one++)
			if ((is_disk ? pread(device, bytes, BLOCK, BLOCK * (one % 200))
			     : read(device, bytes, 64)) < 0)
				break;
		_exit(0);
	}
	for (one = 0; one < count; one++) {
		sprintf(file, "/proc/irq/%d/smp_affinity", numbers[drawn() % found]);
		put(file, one & 1 ? "2" : "1");
		usleep(3000 + drawn() % 9000);
	}
	kill(child, SIGKILL);
	wait(NULL);
}

void hotplug(int times)
{
	while (times--) {
		put("/sys/devices/system/cpu/cpu1/online", "0");
		usleep(20000);
		put("/sys/devices/system/cpu/cpu1/online", "1");
		usleep(20000);
	}
}

static void moved_all(void)
{
	moved("-input", "/dev/hwrng", 6 * scale, 0);
	moved("APLIC-MSI", "/dev/vdb", 4 * scale, 1);
}

/* The machine is powered off while virtual machines run. */
static void alive(const struct load *load)
{
	if (!fork()) {
		machines(load);
		_exit(0);
	}
	sleep(3);
}

#define OF(...) do { struct load load = { __VA_ARGS__ }; machines(&load); } while (0)
#define FILES_ALONE KVM_DEV_RISCV_AIA_MODE_HWACCEL
#define MEMORY_ALONE KVM_DEV_RISCV_AIA_MODE_EMUL
#define EITHER KVM_DEV_RISCV_AIA_MODE_AUTO

static void workload(const char *name, int number)
{
	printf("workload %d %s\n", number, name);
	fflush(stdout);
	if (page)
		page[TELL_WORKLOAD] = number;
	if (!strcmp(name, "ipis"))
		ipis(8 * scale);
	else if (!strcmp(name, "msix"))
		disk("/dev/vda", 10 * scale);
	else if (!strcmp(name, "wired"))
		disk("/dev/vdb", 5 * scale);
	else if (!strcmp(name, "moved"))
		moved_all();
	else if (!strcmp(name, "hotplug"))
		hotplug(1 + scale / 4);
	else if (!strcmp(name, "files"))
		OF(1, 2, FILES_ALONE, 200 * scale, 0, 6000);
	else if (!strcmp(name, "memory"))
		OF(1, 2, MEMORY_ALONE, 60 * scale, 0, 6000);
	else if (!strcmp(name, "crowd"))
		OF(2, 3, EITHER, 100 * scale, 1, 6000);
	else if (!strcmp(name, "plugs"))
		OF(1, 2, EITHER, 100 * scale, 0, 6000, 1);
	else if (!strcmp(name, "majors"))
		OF(1, 2, FILES_ALONE, 60 * scale, 0, 6000, 0, 1);
	else if (!strcmp(name, "senders"))
		OF(1, 2, EITHER, 400 * scale, 0, 3000, 0, 0, 1);
	else if (!strcmp(name, "stream"))
		OF(1, 2, EITHER, 400 * scale, 0, 3000, 0, 0, 1, 1);
	else if (!strcmp(name, "alive"))
		alive(&(struct load){ 1, 2, FILES_ALONE, 1000 * scale, 0, 6000 });
	else
		printf("there is no workload %s\n", name);
}

static char *words(char *line, const char *name)
{
	char *found = strstr(line, name);

	return found ? found + strlen(name) : NULL;
}

int main(void)
{
	static const struct { const char *kind, *folder; } mounts[] = {
		{ "proc", "/proc" }, { "sysfs", "/sys" }, { "devtmpfs", "/dev" } };
	static char line[2048], names[1024];
	char *found, *name, *rest;
	unsigned int one, number = 0;
	int file;

	for (one = 0; one < 3; one++) {
		mkdir(mounts[one].folder, 0755);
		mount(mounts[one].kind, mounts[one].folder, mounts[one].kind, 0, "");
	}
	file = open("/dev/console", O_RDWR);
	for (one = 0; file >= 0 && one < 3; one++)
		dup2(file, one);
	file = open("/proc/cmdline", O_RDONLY);
	if (file < 0 || read(file, line, sizeof line - 1) < 0)
		return 1;
	if ((found = words(line, "scale=")))
		scale = atoi(found);
	if ((found = words(line, "seed=")))
		seed = atoi(found);
	file = open("/dev/mem", O_RDWR | O_SYNC);
	page = mmap(NULL, 4096, PROT_READ | PROT_WRITE, MAP_SHARED, file, PAGE);
	if (page == MAP_FAILED) {
		printf("the page can't be mapped\n");
		page = NULL;
	}
	found = words(line, "workloads=");
	if (found)
		sscanf(found, "%1023s", names);
	for (name = strtok_r(names, ",", &rest); name; name = strtok_r(NULL, ",", &rest))
		workload(name, ++number);
	show("/proc/interrupts");
	printf("all workloads are done\n");
	fflush(stdout);
	if (page)
		page[TELL_WORKLOAD] = 0;
	reboot(RB_POWER_OFF);
	for (;;)
		pause();
}
