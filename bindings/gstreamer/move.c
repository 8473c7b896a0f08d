/* move.c PIPELINE: runs a pipeline in which a darbexummix has the name mix, by lines on standard input, and prints a number for each.
 * At the end of the input it ends the pipeline.
 *
 *     TIME GAIN ..    changes the gains, row by row, at a media time, or at the next block for -1; prints what change-gains returned
 *     flush NAME      flushes from the element of this name on; prints 1 if it took the events */
#include <gst/gst.h>
#include <stdio.h>
#include <string.h>

static gint64 change(GstElement *mix, const gchar *line) {
    gint64 result = 0;
    gchar *rest;
    gint64 at = g_ascii_strtoll(line, &rest, 10);
    GVariantBuilder gains;
    g_variant_builder_init(&gains, G_VARIANT_TYPE("ai"));
    for (const gchar *begin = rest;; begin = rest) {
        gint32 gain = (gint32)g_ascii_strtoll(begin, &rest, 10);
        if (rest == begin) break;
        g_variant_builder_add(&gains, "i", gain);
    }
    GVariant *value = g_variant_ref_sink(g_variant_builder_end(&gains));
    g_signal_emit_by_name(mix, "change-gains", at, value, &result);
    g_variant_unref(value);
    return result;
}

static gint64 flush(GstElement *pipeline, gchar *name) {
    GstElement *element = gst_bin_get_by_name(GST_BIN(pipeline), g_strchomp(name));
    if (!element) return 0;
    gboolean taken = gst_element_send_event(element, gst_event_new_flush_start());
    taken = gst_element_send_event(element, gst_event_new_flush_stop(FALSE)) && taken;
    gst_object_unref(element);
    return taken;
}

/* True if the pipeline ends by EOS, and not by an error. */
static gboolean has_ended(GstElement *pipeline) {
    GstBus *bus = gst_element_get_bus(pipeline);
    GstMessage *message = gst_bus_timed_pop_filtered(bus, 20 * GST_SECOND, GST_MESSAGE_EOS | GST_MESSAGE_ERROR);
    gboolean ended = message && GST_MESSAGE_TYPE(message) == GST_MESSAGE_EOS;
    if (message) gst_message_unref(message);
    gst_object_unref(bus);
    return ended;
}

int main(int argc, char **argv) {
    char line[512];
    gst_init(&argc, &argv);
    GError *error = NULL;
    GstElement *pipeline = argc == 2 ? gst_parse_launch(argv[1], &error) : NULL;
    GstElement *mix = pipeline && !error ? gst_bin_get_by_name(GST_BIN(pipeline), "mix") : NULL;
    if (!mix) {
        fprintf(stderr, "move: %s\n", error ? error->message : "give a pipeline with a darbexummix name=mix");
        return 1;
    }
    gst_element_set_state(pipeline, GST_STATE_PLAYING);
    while (fgets(line, sizeof line, stdin)) {
        printf("%" G_GINT64_FORMAT "\n", strncmp(line, "flush ", 6) ? change(mix, line) : flush(pipeline, line + 6));
        fflush(stdout);
    }
    gst_element_send_event(pipeline, gst_event_new_eos());
    gboolean ended = has_ended(pipeline);
    gst_element_set_state(pipeline, GST_STATE_NULL);
    gst_object_unref(mix);
    gst_object_unref(pipeline);
    return !ended;
}
