/* Reads a net of filters and what is sent into it, and walks every way of each message, one after another: for test/random-nets,
   which builds it (cc -O2 plain_walk.c) and compares. It reads a line at a time, and ends the answer to each with a line `.`:

	pool CLIENT SIZE                   the client has room for so many messages
	rule NODE CHANNELS KINDS LOW HIGH SHIFT CHANNEL
	                                   the rule of a filter, with -1 where it sets no channel
	edge NODE NODE                     a subscription, the youngest of all
	cut NODE NODE                      one that ends
	send NODE MOMENT HEX..             a message from a port; the answer is each copy that found room: CLIENT MOMENT port P HEX
	listen CLIENT                      what comes waits no longer, and there is room for SIZE messages of each moment
	unlisten CLIENT                    what comes waits again
	take CLIENT MAX                    the oldest that wait; the answer is each of them: CLIENT MOMENT port P HEX
	tell CLIENT                        the answer is how many wait, and how many were lost

   A NODE is a port or a filter as in scripts, 128:p0 or 128:f0. */
#include <stdio.h>
#include <stdlib.h>
#include <string.h>

enum {
	FIRST_CLIENT = 128,
	CLIENTS = 64,
	NUMBERS = 16,		/* so many ports, and so many filters, of a client */
	NODES = CLIENTS * 2 * NUMBERS,
	MOST_WAITING = 2000,
	HOPS = 8,		/* so many subscriptions along a way */
	LONGEST = 32,		/* the bytes of a message, here */
};

struct message {
	int size;
	unsigned char bytes[LONGEST];
};

struct arrival {
	unsigned long long moment;
	int port;
	struct message message;
};

struct pool {
	int size, waiting;
	unsigned long long lost;
	struct arrival arrivals[MOST_WAITING];
	int listens, heard;	/* so many at the moment of the last */
	unsigned long long moment;
};

struct rule {
	int channels, kinds, low, high, shift, channel;
};

struct node {
	struct rule rule;
	int edges;
	short targets[NODES];	/* the oldest subscription first */
};

static struct pool pools[CLIENTS];
static struct node nodes[NODES];

static void stop(const char *line)
{
	fprintf(stderr, "plain_walk: cannot follow: %s", line);
	exit(EXIT_FAILURE);
}

static int is_filter(int node)
{
	return node / NUMBERS % 2;
}

/* 8n note off 1, 9n note on 2, An 4, Bn 8, Cn 16, Dn 32, En 64, system common 128, real time 256, exclusive 512. */
static int kind_of(int status)
{
	if (status < 0xF0)
		return 1 << (status / 16 - 8);
	if (status == 0xF0)
		return 512;
	return status < 0xF8 ? 128 : 256;
}

/* Whether the rule lets the message pass, which it may change. */
static int passes(const struct rule *rule, struct message *message)
{
	int status = message->bytes[0], note = message->bytes[1];

	if (!(rule->kinds & kind_of(status)))
		return 0;
	if (status >= 0xF0)
		return 1;
	if (!(rule->channels >> status % 16 & 1))
		return 0;
	if (status < 0xB0) {
		if (note < rule->low || note > rule->high)
			return 0;
		note += rule->shift;
		if (note < 0 || note > 127)
			return 0;
		message->bytes[1] = (unsigned char)note;
	}
	if (rule->channel >= 0)
		message->bytes[0] = (unsigned char)(status / 16 * 16 + rule->channel);
	return 1;
}

static void print(int client, const struct arrival *arrival)
{
	printf("%d %llu port %d", client + FIRST_CLIENT, arrival->moment, arrival->port);
	for (int at = 0; at < arrival->message.size; at++)
		printf(" %02X", arrival->message.bytes[at]);
	putchar('\n');
}

/* Whether one more finds room, which it then takes. */
static int takes(struct pool *pool, const struct arrival *arrival)
{
	if (!pool->listens) {
		if (pool->waiting >= pool->size)
			return 0;
		pool->arrivals[pool->waiting++] = *arrival;
		return 1;
	}
	if (pool->moment != arrival->moment)
		pool->heard = 0;
	if (pool->heard >= pool->size)
		return 0;
	pool->moment = arrival->moment;
	pool->heard++;
	return 1;
}

static void offer(int port, unsigned long long moment, const struct message *message)
{
	int client = port / (2 * NUMBERS);
	struct arrival arrival = { moment, port % NUMBERS, *message };

	if (takes(&pools[client], &arrival))
		print(client, &arrival);
	else
		pools[client].lost++;
}

static void listen_from_now_on(struct pool *pool, int listens)
{
	pool->listens = listens;
	pool->heard = 0;
}

/* Takes each subscription of a node, of which the way has `hops` left. */
static void walk(int node, int hops, unsigned long long moment, const struct message *message)
{
	for (int at = 0; at < nodes[node].edges; at++) {
		int target = nodes[node].targets[at];
		if (!is_filter(target)) {
			offer(target, moment, message);
			continue;
		}
		struct message passed = *message;
		if (hops > 1 && passes(&nodes[target].rule, &passed))
			walk(target, hops - 1, moment, &passed);
	}
}

static void take(int client, int most)
{
	struct pool *pool = &pools[client];
	int count = pool->waiting < most ? pool->waiting : most;

	for (int at = 0; at < count; at++)
		print(client, &pool->arrivals[at]);
	pool->waiting -= count;
	memmove(pool->arrivals, pool->arrivals + count, (size_t)pool->waiting * sizeof *pool->arrivals);
}

static void cut(int source, int target)
{
	struct node *node = &nodes[source];
	int kept = 0;

	for (int at = 0; at < node->edges; at++)
		if (node->targets[at] != target)
			node->targets[kept++] = node->targets[at];
	node->edges = kept;
}

static int node_of(const char *word, const char *line)
{
	int client, number;
	char kind;

	if (sscanf(word, "%d:%c%d", &client, &kind, &number) != 3 || client < FIRST_CLIENT || client >= FIRST_CLIENT + CLIENTS
	    || (kind != 'p' && kind != 'f') || number < 0 || number >= NUMBERS)
		stop(line);
	return ((client - FIRST_CLIENT) * 2 + (kind == 'f')) * NUMBERS + number;
}

static int client_of(const char *word, const char *line)
{
	int client = atoi(word) - FIRST_CLIENT;

	if (client < 0 || client >= CLIENTS)
		stop(line);
	return client;
}

static void answer(char *words[], int count, const char *line)
{
	const char *word = words[0];

	if (count == 3 && !strcmp(word, "pool")) {
		pools[client_of(words[1], line)].size = atoi(words[2]);
	} else if (count == 8 && !strcmp(word, "rule")) {
		nodes[node_of(words[1], line)].rule = (struct rule){
			atoi(words[2]), atoi(words[3]), atoi(words[4]), atoi(words[5]), atoi(words[6]), atoi(words[7])
		};
	} else if (count == 3 && !strcmp(word, "edge")) {
		struct node *node = &nodes[node_of(words[1], line)];
		node->targets[node->edges++] = (short)node_of(words[2], line);
	} else if (count == 3 && !strcmp(word, "cut")) {
		cut(node_of(words[1], line), node_of(words[2], line));
	} else if (count > 3 && count <= 3 + LONGEST && !strcmp(word, "send")) {
		struct message message = { count - 3, { 0 } };
		for (int at = 3; at < count; at++)
			message.bytes[at - 3] = (unsigned char)strtol(words[at], NULL, 16);
		walk(node_of(words[1], line), HOPS, strtoull(words[2], NULL, 10), &message);
	} else if (count == 3 && !strcmp(word, "take")) {
		take(client_of(words[1], line), atoi(words[2]));
	} else if (count == 2 && !strcmp(word, "listen")) {
		listen_from_now_on(&pools[client_of(words[1], line)], 1);
	} else if (count == 2 && !strcmp(word, "unlisten")) {
		listen_from_now_on(&pools[client_of(words[1], line)], 0);
	} else if (count == 2 && !strcmp(word, "tell")) {
		const struct pool *pool = &pools[client_of(words[1], line)];
		printf("%d %llu\n", pool->waiting, pool->lost);
	} else {
		stop(line);
	}
	puts(".");
}

int main(void)
{
	static char line[1024], cells[1024];
	char *words[3 + LONGEST + 1];

	while (fgets(line, sizeof line, stdin)) {
		int count = 0;
		strcpy(cells, line);
		for (char *word = strtok(cells, " \n"); word && count < 3 + LONGEST + 1; word = strtok(NULL, " \n"))
			words[count++] = word;
		if (!count)
			stop(line);
		answer(words, count, line);
	}
	return EXIT_SUCCESS;
}
