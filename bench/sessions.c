/* The sessions of bench/run by a plain C program: for a comparison of speed and memory alone. It reads the scripts that are
   named as `CLIENT=PATH` behind the moment of the end and the path of the file that is played, runs them, keeps the text of
   each client's log, and prints all at the end. It knows the commands of these sessions, trusts what they say, and refuses
   nothing. */
#include <stdint.h>
#include <stdio.h>
#include <stdlib.h>
#include <string.h>

#define FIRST 128
#define CLIENTS 64
#define NODES 16
#define HOPS 8

static const char DIGITS[] = "0123456789ABCDEF";

struct message {
	uint8_t size;
	uint8_t bytes[3];
};

struct rule {
	uint16_t channels, kinds;
	uint8_t low, high;
	int16_t shift;
};

struct target {
	uint8_t client, is_filter, place;
};

struct node {
	struct rule rule;
	struct target *targets;
	size_t size, room;
};

struct text {
	char *bytes;
	size_t size, room;
};

/* what is heard is counted anew at each moment */
struct client {
	int is_open, listens;
	uint32_t in, out, pending, heard;
	uint64_t heard_at, lost;
	struct node ports[NODES], filters[NODES];
	struct text log;
	const char *script;
	uint64_t next;
	uint32_t line;
};

struct event {
	uint64_t tick;
	struct message message;
};

/* what is due at a moment: a message, or what is to come of the file from an event on */
struct cell {
	uint64_t moment, rank;
	uint8_t client, port;
	int is_file;
	size_t at;
	struct message message;
};

static struct client clients[CLIENTS];
static struct cell *heap;
static size_t pending, heap_room;
static uint64_t ranks, started, tick_ns;
static struct event *events;
static size_t event_count;
static const char *song;

static void *grown(void *items, size_t size, size_t *room, size_t each)
{
	if (size < *room)
		return items;
	*room = *room ? 2 * *room : 16;
	items = realloc(items, *room * each);
	if (!items)
		exit(1);
	return items;
}

/* ---- the text of a log */

static char *line_of(struct text *text)
{
	if (text->room - text->size < 128) {
		text->room = 2 * text->room + 256;
		text->bytes = realloc(text->bytes, text->room);
		if (!text->bytes)
			exit(1);
	}
	return text->bytes + text->size;
}

static char *put_words(char *at, const char *words, size_t size)
{
	memcpy(at, words, size);
	return at + size;
}

static char *put_number(char *at, uint64_t n)
{
	char digits[20];
	size_t first = sizeof(digits);
	do {
		digits[--first] = '0' + n % 10;
		n /= 10;
	} while (n);
	return put_words(at, digits + first, sizeof(digits) - first);
}

static void log_reply(struct client *client, uint64_t moment)
{
	char *at = put_number(line_of(&client->log), moment);
	at = put_number(put_words(at, " line ", 6), client->line);
	client->log.size = put_words(at, " ok\n", 4) - client->log.bytes;
}

static void log_message(struct client *client, uint64_t moment, int port, struct message message)
{
	char *at = put_number(line_of(&client->log), moment);
	at = put_number(put_words(at, " port ", 6), port);
	for (int i = 0; i < message.size; i++) {
		*at++ = ' ';
		*at++ = DIGITS[message.bytes[i] >> 4];
		*at++ = DIGITS[message.bytes[i] & 15];
	}
	*at++ = '\n';
	client->log.size = at - client->log.bytes;
}

/* ---- what goes along the subscriptions */

static int let_through(const struct rule *rule, struct message *message)
{
	static const uint16_t kinds[] = { 1, 2, 4, 8, 16, 32, 64 };
	uint8_t status = message->bytes[0];
	if (status >= 0xF0)
		return (rule->kinds & (status == 0xF0 ? 512 : status < 0xF8 ? 128 : 256)) != 0;
	if (!(rule->kinds & kinds[(status >> 4) - 8]) || !(rule->channels >> (status & 15) & 1))
		return 0;
	if (status < 0xB0) {
		int note = message->bytes[1];
		if (note < rule->low || note > rule->high)
			return 0;
		note += rule->shift;
		if (note < 0 || note > 127)
			return 0;
		message->bytes[1] = note;
	}
	return 1;
}

static void spread(const struct node *node, uint64_t moment, int hops, struct message message)
{
	for (size_t i = 0; i < node->size; i++) {
		struct target target = node->targets[i];
		struct client *client = &clients[target.client];
		struct message passed = message;
		if (target.is_filter) {
			if (hops > 1 && let_through(&client->filters[target.place].rule, &passed))
				spread(&client->filters[target.place], moment, hops - 1, passed);
			continue;
		}
		if (client->heard_at != moment) {
			client->heard_at = moment;
			client->heard = 0;
		}
		if (!client->listens || client->heard == client->in) {
			client->lost++;
			continue;
		}
		client->heard++;
		log_message(client, moment, target.place, passed);
	}
}

/* ---- what is due */

static int is_before(const struct cell *one, const struct cell *other)
{
	return one->moment != other->moment ? one->moment < other->moment : one->rank < other->rank;
}

static void push(struct cell cell)
{
	size_t at = pending;
	heap = grown(heap, pending, &heap_room, sizeof(cell));
	pending++;
	while (at && is_before(&cell, &heap[(at - 1) / 2])) {
		heap[at] = heap[(at - 1) / 2];
		at = (at - 1) / 2;
	}
	heap[at] = cell;
}

static struct cell pop(void)
{
	struct cell first = heap[0], last = heap[--pending];
	size_t at = 0;
	for (size_t next = 1; next < pending; next = 2 * at + 1) {
		if (next + 1 < pending && is_before(&heap[next + 1], &heap[next]))
			next++;
		if (!is_before(&heap[next], &last))
			break;
		heap[at] = heap[next];
		at = next;
	}
	heap[at] = last;
	return first;
}

static void settle(uint64_t moment)
{
	while (pending && heap[0].moment <= moment) {
		struct cell cell = pop();
		struct client *client = &clients[cell.client];
		spread(&client->ports[cell.port], cell.moment, HOPS, cell.message);
		if (cell.is_file && ++cell.at < event_count) {
			cell.moment = started + events[cell.at].tick * tick_ns;
			cell.message = events[cell.at].message;
			push(cell);
		} else {
			client->pending--;
		}
	}
}

/* ---- the file */

static uint32_t quantity(const uint8_t **at)
{
	uint32_t n = 0;
	do
		n = n << 7 | (**at & 127);
	while (*(*at)++ & 128);
	return n;
}

static char *content(const char *path, size_t *size)
{
	FILE *file = fopen(path, "rb");
	char *bytes;
	if (!file || fseek(file, 0, SEEK_END))
		exit(1);
	*size = ftell(file);
	rewind(file);
	bytes = malloc(*size + 1);
	if (!bytes || fread(bytes, 1, *size, file) != *size)
		exit(1);
	fclose(file);
	bytes[*size] = 0;
	return bytes;
}

/* One track, whose first event is its only tempo. */
static void read_song(void)
{
	size_t size, room = 0;
	uint8_t *bytes = (uint8_t *)content(song, &size), status = 0;
	const uint8_t *at = bytes + 22;
	uint64_t tick = 0, ppq = bytes[12] << 8 | bytes[13];
	for (;;) {
		struct message message = { 0 };
		tick += quantity(&at);
		if (*at == 0xFF) {
			uint8_t kind = at[1];
			at += 2;
			uint32_t length = quantity(&at);
			if (kind == 0x51)
				tick_ns = (uint64_t)(at[0] << 16 | at[1] << 8 | at[2]) * 1000 / ppq;
			at += length;
			if (kind == 0x2F)
				break;
			continue;
		}
		if (*at & 128)
			status = *at++;
		message.size = (status & 0xE0) == 0xC0 ? 2 : 3;
		message.bytes[0] = status;
		for (int i = 1; i < message.size; i++)
			message.bytes[i] = *at++;
		events = grown(events, event_count, &room, sizeof(*events));
		events[event_count++] = (struct event){ tick, message };
	}
	free(bytes);
}

/* ---- a line of a script */

static const char *skip(const char *at)
{
	while (*at == ' ')
		at++;
	return at;
}

static uint64_t number(const char **at)
{
	uint64_t n = 0;
	int is_below = **(at) == '-';
	*at = skip(*at) + is_below;
	while (**at >= '0' && **at <= '9')
		n = 10 * n + (*(*at)++ - '0');
	*at = skip(*at);
	return is_below ? -n : n;
}

static int is_word(const char **at, const char *word)
{
	size_t size = strlen(word);
	if (strncmp(*at, word, size) || ((*at)[size] != ' ' && (*at)[size] != '\n'))
		return 0;
	*at = skip(*at + size);
	return 1;
}

static void pass_word(const char **at)
{
	while (**at != ' ' && **at != '\n')
		(*at)++;
	*at = skip(*at);
}

static struct target address(const char **at)
{
	struct target target = { number(at) - FIRST, 0, 0 };
	target.is_filter = (*at)[1] == 'f';
	*at += 2;
	target.place = number(at);
	return target;
}

static int digit(char c)
{
	return c <= '9' ? c - '0' : (c | 32) - 'a' + 10;
}

static struct message message(const char *at)
{
	struct message message = { 0 };
	while (*at != '\n') {
		message.bytes[message.size++] = digit(at[0]) << 4 | digit(at[1]);
		at = skip(at + 2);
	}
	return message;
}

static void connect(const char *at)
{
	struct target from = address(&at), to = address(&at);
	struct node *node = from.is_filter ? &clients[from.client].filters[from.place] : &clients[from.client].ports[from.place];
	node->targets = grown(node->targets, node->size, &node->room, sizeof(to));
	node->targets[node->size++] = to;
}

static void schedule(struct client *client, uint64_t moment, const char *at)
{
	struct cell cell = { .client = client - clients, .rank = ranks++ };
	pass_word(&at);
	cell.port = number(&at);
	at++;
	cell.moment = started + number(&at);
	if (cell.moment < moment)
		cell.moment = moment;
	cell.message = message(at);
	client->pending++;
	push(cell);
}

static void play(struct client *client, const char *at)
{
	struct cell cell = { .client = client - clients, .rank = ranks++, .is_file = 1 };
	pass_word(&at);
	cell.port = number(&at);
	cell.moment = started + events[0].tick * tick_ns;
	cell.message = events[0].message;
	client->pending++;
	push(cell);
}

static void make_filter(struct client *client, const char *at)
{
	struct rule rule;
	struct node *node = &client->filters[number(&at)];
	number(&at);
	rule.channels = number(&at);
	rule.kinds = number(&at);
	rule.low = number(&at);
	rule.high = number(&at);
	rule.shift = number(&at);
	node->rule = rule;
}

static void open_client(struct client *client, const char *at)
{
	client->is_open = 1;
	client->heard_at = UINT64_MAX;
	pass_word(&at);
	client->in = number(&at);
	client->out = number(&at);
}

/* A queue is made of the file where one is named. All queues start at the beginning. */
static void take(struct client *client, uint64_t moment, const char *at)
{
	if (is_word(&at, "schedule"))
		schedule(client, moment, at);
	else if (is_word(&at, "connect"))
		connect(at);
	else if (is_word(&at, "filter"))
		make_filter(client, at);
	else if (is_word(&at, "open"))
		open_client(client, at);
	else if (is_word(&at, "listen"))
		client->listens = 1;
	else if (is_word(&at, "queuefrom"))
		read_song();
	else if (is_word(&at, "play"))
		play(client, at);
	else if (is_word(&at, "start"))
		started = moment;
	else if (!is_word(&at, "port") && !is_word(&at, "queue"))
		exit(1);
	log_reply(client, moment);
}

/* the client whose next line comes first, if there is one */
static struct client *next_client(void)
{
	struct client *first = NULL;
	for (struct client *it = clients; it < clients + CLIENTS; it++)
		if (it->script && (!first || it->next < first->next))
			first = it;
	return first;
}

static void read_moment(struct client *client)
{
	if (*client->script)
		client->next = number(&client->script);
	else
		client->script = NULL;
}

static void print_logs(void)
{
	for (struct client *it = clients; it < clients + CLIENTS; it++) {
		if (!it->line)
			continue;
		printf("client %d\n", (int)(it - clients) + FIRST);
		if (fwrite(it->log.bytes, 1, it->log.size, stdout) != it->log.size)
			exit(1);
	}
}

int main(int count, char **words)
{
	struct client *client;
	uint64_t until = strtoull(words[1], NULL, 10);
	song = words[2];
	for (int i = 3; i < count; i++) {
		size_t size;
		client = &clients[atoi(words[i]) - FIRST];
		client->script = content(strchr(words[i], '=') + 1, &size);
		read_moment(client);
	}
	while ((client = next_client()) && client->next <= until) {
		settle(client->next);
		client->line++;
		take(client, client->next, client->script);
		client->script = strchr(client->script, '\n') + 1;
		read_moment(client);
	}
	settle(until);
	print_logs();
	return 0;
}
