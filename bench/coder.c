/* Reads MIDI bytes with the coder of alsa-lib, and prints each message on a line in hexadecimal, as
   `midiseq wire` does before its last line. Built and run by bench/peers: cc -O2 coder.c -lasound; coder FILE. */
#include <alsa/asoundlib.h>
#include <stdio.h>
#include <stdlib.h>

static const char digits[] = "0123456789ABCDEF";

static void print(const unsigned char *bytes, long count)
{
	for (long at = 0; at < count; at++) {
		if (at)
			putchar(' ');
		putchar(digits[bytes[at] >> 4]);
		putchar(digits[bytes[at] & 15]);
	}
	putchar('\n');
}

int main(int argc, char **argv)
{
	static unsigned char piece[65536], out[65536];
	snd_midi_event_t *reader, *writer;
	snd_seq_event_t event;
	FILE *file = argc == 2 ? fopen(argv[1], "rb") : NULL;
	size_t count;

	if (!file || snd_midi_event_new(65536, &reader) || snd_midi_event_new(65536, &writer))
		return EXIT_FAILURE;
	snd_midi_event_no_status(writer, 1);
	while ((count = fread(piece, 1, sizeof piece, file)) > 0) {
		for (size_t at = 0; at < count;) {
			long taken = snd_midi_event_encode(reader, piece + at, (long)(count - at), &event);
			if (taken <= 0)
				return EXIT_FAILURE;
			at += (size_t)taken;
			if (event.type == SND_SEQ_EVENT_NONE)
				continue;
			long bytes = snd_midi_event_decode(writer, out, sizeof out, &event);
			if (bytes > 0)
				print(out, bytes);
		}
	}
	return EXIT_SUCCESS;
}
