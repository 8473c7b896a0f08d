/* gstdarbexummix.c - the element darbexummix: the RTP datagrams of streams on several paths go in, those of the mix come
 * out, by libdarbexum.
 *
 * A request pad sink_STREAM_PATH takes what a udpsrc gives. The task of the src pad turns the engine by the pipeline's
 * clock, at the deadlines that the engine names. */
#include <darbexum.h>
#include <gst/gst.h>
#include <stdio.h>
#include <string.h>

#define GST_TYPE_DARBEXUM_MIX (gst_darbexum_mix_get_type())
G_DECLARE_FINAL_TYPE(GstDarbexumMix, gst_darbexum_mix, GST, DARBEXUM_MIX, GstElement)
GST_DEBUG_CATEGORY_STATIC(darbexum_debug);
#define GST_CAT_DEFAULT darbexum_debug

enum { RATE = 48000, MAX_STREAMS = 16, MAX_PATHS = 4 };
/* In a configuration this word stands for the clock reading at which the pipeline begins to play. */
static const gchar NOW[] = "@NOW@";

struct _GstDarbexumMix {
    GstElement element;
    GstPad *src;
    GMutex lock; /* of all that follows: the engine takes one call at a time */
    darbexum engine;
    darbexum_output_t output;
    gint64 open_at;
    guint64 latency; /* from the media time of a block's first instant until it is given, in sampling instants */
    guint64 blocks;  /* given so far */
    GList *ways;
    gboolean announced, running, closed;
    gint64 waits_for; /* the clock reading that the task waits for */
    GstClockID wait;
    gchar *config, *location;
    gboolean media_clock;
    gint64 offset;
};
G_DEFINE_TYPE(GstDarbexumMix, gst_darbexum_mix, GST_TYPE_ELEMENT)

/* A sink pad's stream and path. */
typedef struct {
    GstPad *pad;
    guint stream, path;
    gboolean ended;
} Way;

enum { PROP_0, PROP_CONFIG, PROP_LOCATION, PROP_MEDIA_CLOCK, PROP_OFFSET, PROP_STATS };

static GstStaticPadTemplate sink_template = GST_STATIC_PAD_TEMPLATE("sink_%u_%u", GST_PAD_SINK, GST_PAD_REQUEST,
    GST_STATIC_CAPS("application/x-rtp"));
static GstStaticPadTemplate src_template = GST_STATIC_PAD_TEMPLATE("src", GST_PAD_SRC, GST_PAD_ALWAYS,
    GST_STATIC_CAPS("application/x-rtp, media = (string) audio, clock-rate = (int) 48000, encoding-name = (string) { L16, L24 }"));

static GstClockTime to_ns(guint64 instants) { return gst_util_uint64_scale(instants, GST_SECOND, RATE); }

static gchar *text_of(gint32 code) {
    guint8 text[128];
    darbexum_fault_text(code, text, sizeof text);
    return g_strdup((const gchar *)text);
}

/* The clock time that a reading is 0 at, in nanoseconds; with the media clock that is the clock's own, less `offset`. */
static gint64 zero_of(GstDarbexumMix *self) {
    if (self->media_clock) return -self->offset;
    return (gint64)gst_element_get_base_time(GST_ELEMENT(self)) - (gint64)to_ns((guint64)self->open_at) - self->offset;
}

/* The reading of a clock, in sampling instants. */
static gint64 reading_of(GstDarbexumMix *self, GstClock *clock) {
    gint64 ns = (gint64)gst_clock_get_time(clock) - zero_of(self);
    return ns < 0 ? 0 : (gint64)gst_util_uint64_scale((guint64)ns, RATE, GST_SECOND);
}

/* The clock time at which a reading has come. */
static GstClockTime time_of(GstDarbexumMix *self, gint64 reading) {
    gint64 ns = zero_of(self) + (gint64)gst_util_uint64_scale_ceil((guint64)reading, GST_SECOND, RATE);
    return ns < 0 ? 0 : (GstClockTime)ns;
}

/* --- datagrams in --- */

static GstFlowReturn chain(GstPad *pad, GstObject *parent, GstBuffer *buffer) {
    GstDarbexumMix *self = GST_DARBEXUM_MIX(parent);
    Way *way = gst_pad_get_element_private(pad);
    GstMapInfo map;
    if (gst_buffer_map(buffer, &map, GST_MAP_READ)) {
        gint64 deadline;
        static const guint8 none;
        g_mutex_lock(&self->lock);
        /* DARBEXUM_UNFINISHED does not come: the task turns to the end under the lock. */
        gint32 outcome = darbexum_arrive(&self->engine, way->stream, (guint8)way->path, map.size ? map.data : &none, map.size);
        /* What arrived may bring a datagram earlier than the task waits for. */
        if (outcome >= 0 && self->wait && darbexum_next_deadline(&self->engine, &deadline) == 0 && deadline < self->waits_for)
            gst_clock_id_unschedule(self->wait);
        g_mutex_unlock(&self->lock);
        GST_LOG_OBJECT(pad, "outcome %d", outcome);
        gst_buffer_unmap(buffer, &map);
    }
    gst_buffer_unref(buffer);
    return GST_FLOW_OK;
}

/* True if every pad has ended, and there is one. */
static gboolean all_ended(GstDarbexumMix *self) {
    for (GList *it = self->ways; it; it = it->next)
        if (!((Way *)it->data)->ended) return FALSE;
    return self->ways != NULL;
}

static void wake(GstDarbexumMix *self) {
    if (self->wait) gst_clock_id_unschedule(self->wait);
}

static gboolean sink_event(GstPad *pad, GstObject *parent, GstEvent *event) {
    GstDarbexumMix *self = GST_DARBEXUM_MIX(parent);
    Way *way = gst_pad_get_element_private(pad);
    g_mutex_lock(&self->lock);
    if (GST_EVENT_TYPE(event) == GST_EVENT_EOS) {
        way->ended = TRUE;
        if (all_ended(self)) wake(self);
    } else if (GST_EVENT_TYPE(event) == GST_EVENT_FLUSH_STOP) {
        way->ended = FALSE;
    }
    g_mutex_unlock(&self->lock);
    /* Caps and segments of a path say nothing to the engine, which reads the datagrams. One path that flushes is a loss on
     * that path, and does not flush the mix. */
    gst_event_unref(event);
    return TRUE;
}

/* --- datagrams out --- */

/* Pushes what has to come before the first buffer. */
static void announce(GstDarbexumMix *self) {
    if (self->announced) return;
    self->announced = TRUE;
    gchar *id = gst_pad_create_stream_id(self->src, GST_ELEMENT(self), NULL);
    gst_pad_push_event(self->src, gst_event_new_stream_start(id));
    g_free(id);
    gchar *channels = g_strdup_printf("%u", self->output.channels);
    GstCaps *caps = gst_caps_new_simple("application/x-rtp", "media", G_TYPE_STRING, "audio", "clock-rate", G_TYPE_INT, RATE,
        "encoding-name", G_TYPE_STRING, self->output.sample_octets == 2 ? "L16" : "L24", "channels", G_TYPE_INT,
        (gint)self->output.channels, "encoding-params", G_TYPE_STRING, channels, "payload", G_TYPE_INT,
        (gint)self->output.payload_type, "ssrc", G_TYPE_UINT, self->output.ssrc, NULL);
    g_free(channels);
    gst_pad_push_event(self->src, gst_event_new_caps(caps));
    gst_caps_unref(caps);
    GstSegment segment;
    gst_segment_init(&segment, GST_FORMAT_TIME);
    gst_pad_push_event(self->src, gst_event_new_segment(&segment));
}

/* The buffers of a turn, or of a drain if `now` is negative. Called with the lock. */
static GstBufferList *take(GstDarbexumMix *self, gint64 now) {
    GstBufferList *list = gst_buffer_list_new();
    guint8 out[DARBEXUM_MAX_OCTETS];
    ptrdiff_t len;
    while ((len = now < 0 ? darbexum_drain(&self->engine, out, sizeof out) : darbexum_turn(&self->engine, now, out, sizeof out)) > 0) {
        GstBuffer *buffer = gst_buffer_new_allocate(NULL, (gsize)len, NULL);
        gst_buffer_fill(buffer, 0, out, (gsize)len);
        /* The running time of its first instant; a block before the opening is at 0. */
        gint64 begin = self->output.start + (gint64)(self->blocks * self->output.frames) - self->open_at;
        GST_BUFFER_PTS(buffer) = to_ns(begin > 0 ? (guint64)begin : 0);
        GST_BUFFER_DURATION(buffer) = to_ns(self->output.frames);
        GST_BUFFER_OFFSET(buffer) = self->blocks++;
        gst_buffer_list_add(list, buffer);
    }
    if (len < 0 && len != DARBEXUM_WENT_BACK) {
        gchar *text = text_of((gint32)len);
        GST_WARNING_OBJECT(self, "turn to %" G_GINT64_FORMAT ": %s", now, text);
        g_free(text);
    }
    return list;
}

static GstFlowReturn push(GstDarbexumMix *self, GstBufferList *list) {
    if (!gst_buffer_list_length(list)) {
        gst_buffer_list_unref(list);
        return GST_FLOW_OK;
    }
    announce(self);
    return gst_pad_push_list(self->src, list);
}

/* Waits for the next deadline, or until it is woken. */
static void rest(GstDarbexumMix *self, GstClock *clock, gint64 now) {
    gint64 deadline;
    g_mutex_lock(&self->lock);
    if (!self->running || all_ended(self)) {
        g_mutex_unlock(&self->lock);
        return;
    }
    if (darbexum_next_deadline(&self->engine, &deadline)) deadline = now + RATE / 100;
    self->waits_for = deadline;
    GstClockID id = self->wait = gst_clock_new_single_shot_id(clock, time_of(self, deadline));
    gst_clock_id_ref(id);
    g_mutex_unlock(&self->lock);
    gst_clock_id_wait(id, NULL);
    g_mutex_lock(&self->lock);
    gst_clock_id_unref(self->wait);
    self->wait = NULL;
    g_mutex_unlock(&self->lock);
    gst_clock_id_unref(id);
}

static void task(gpointer data) {
    GstDarbexumMix *self = data;
    GstClock *clock = gst_element_get_clock(GST_ELEMENT(self));
    if (!clock) {
        g_usleep(1000);
        return;
    }
    g_mutex_lock(&self->lock);
    gint64 now = reading_of(self, clock);
    GstBufferList *list = take(self, now);
    gboolean ends = self->running && all_ended(self);
    if (ends) {
        darbexum_close(&self->engine);
        self->closed = TRUE;
    }
    g_mutex_unlock(&self->lock);
    GstFlowReturn flow = push(self, list);
    if (ends && flow == GST_FLOW_OK) {
        g_mutex_lock(&self->lock);
        list = take(self, -1);
        g_mutex_unlock(&self->lock);
        flow = push(self, list);
        announce(self);
        gst_pad_push_event(self->src, gst_event_new_eos());
        gst_pad_pause_task(self->src);
    } else if (flow != GST_FLOW_OK) {
        if (flow < GST_FLOW_EOS || flow == GST_FLOW_NOT_LINKED) GST_ELEMENT_FLOW_ERROR(self, flow);
        gst_pad_pause_task(self->src);
    } else {
        rest(self, clock, now);
    }
    gst_object_unref(clock);
}

static void hold(gpointer pad, gpointer none) { gst_object_ref(pad); }

/* The greatest latency of what is linked to the sink pads. */
static GstClockTime latency_upstream(GstDarbexumMix *self) {
    GstClockTime most = 0;
    GST_OBJECT_LOCK(self);
    GList *pads = g_list_copy(GST_ELEMENT(self)->sinkpads);
    g_list_foreach(pads, hold, NULL);
    GST_OBJECT_UNLOCK(self);
    for (GList *it = pads; it; it = it->next) {
        GstQuery *query = gst_query_new_latency();
        GstClockTime least;
        if (gst_pad_peer_query(it->data, query)) {
            gst_query_parse_latency(query, NULL, &least, NULL);
            if (GST_CLOCK_TIME_IS_VALID(least) && least > most) most = least;
        }
        gst_query_unref(query);
    }
    g_list_free_full(pads, gst_object_unref);
    return most;
}

static gboolean src_query(GstPad *pad, GstObject *parent, GstQuery *query) {
    GstDarbexumMix *self = GST_DARBEXUM_MIX(parent);
    if (GST_QUERY_TYPE(query) != GST_QUERY_LATENCY) return gst_pad_query_default(pad, parent, query);
    GstClockTime upstream = latency_upstream(self);
    g_mutex_lock(&self->lock);
    gst_query_set_latency(query, TRUE, upstream + to_ns(self->latency), GST_CLOCK_TIME_NONE);
    g_mutex_unlock(&self->lock);
    return TRUE;
}

static gboolean src_event(GstPad *pad, GstObject *parent, GstEvent *event) {
    /* A live mix cannot seek. */
    if (GST_EVENT_TYPE(event) == GST_EVENT_SEEK) {
        gst_event_unref(event);
        return FALSE;
    }
    return gst_pad_event_default(pad, parent, event);
}

/* --- pads and states --- */

static Way *way_at(GstDarbexumMix *self, guint stream, guint path) {
    for (GList *it = self->ways; it; it = it->next) {
        Way *way = it->data;
        if (way->stream == stream && way->path == path) return way;
    }
    return NULL;
}

static GstPad *request_pad(GstElement *element, GstPadTemplate *template, const gchar *asked, const GstCaps *caps) {
    GstDarbexumMix *self = GST_DARBEXUM_MIX(element);
    guint stream = 0, path = 0;
    g_mutex_lock(&self->lock);
    if (!asked || sscanf(asked, "sink_%u_%u", &stream, &path) != 2)
        while (path < MAX_PATHS && way_at(self, stream, path)) path++;
    if (stream >= MAX_STREAMS || path >= MAX_PATHS || way_at(self, stream, path)) {
        g_mutex_unlock(&self->lock);
        GST_WARNING_OBJECT(self, "there is no free pad sink_%u_%u", stream, path);
        return NULL;
    }
    gchar *name = g_strdup_printf("sink_%u_%u", stream, path);
    Way *way = g_new0(Way, 1);
    *way = (Way){gst_pad_new_from_template(template, name), stream, path, FALSE};
    g_free(name);
    self->ways = g_list_append(self->ways, way);
    g_mutex_unlock(&self->lock);
    gst_pad_set_element_private(way->pad, way);
    gst_pad_set_chain_function(way->pad, chain);
    gst_pad_set_event_function(way->pad, sink_event);
    gst_pad_set_active(way->pad, TRUE);
    gst_element_add_pad(element, way->pad);
    return way->pad;
}

static void release_pad(GstElement *element, GstPad *pad) {
    GstDarbexumMix *self = GST_DARBEXUM_MIX(element);
    Way *way = gst_pad_get_element_private(pad);
    gst_pad_set_active(pad, FALSE);
    g_mutex_lock(&self->lock);
    self->ways = g_list_remove(self->ways, way);
    if (all_ended(self)) wake(self);
    g_mutex_unlock(&self->lock);
    gst_element_remove_pad(element, pad);
    g_free(way);
}

/* The configuration's text, with a reading in the place of @NOW@. */
static gchar *config_text(GstDarbexumMix *self, gint64 now) {
    gchar *text = NULL;
    if (self->location) {
        GError *error = NULL;
        if (!g_file_get_contents(self->location, &text, NULL, &error)) {
            GST_ELEMENT_ERROR(self, RESOURCE, OPEN_READ, ("%s", error->message), (NULL));
            g_error_free(error);
            return NULL;
        }
    } else {
        text = g_strdup(self->config ? self->config : "");
    }
    gchar *number = g_strdup_printf("%" G_GINT64_FORMAT, now), **parts = g_strsplit(text, NOW, -1);
    gchar *filled = g_strjoinv(number, parts);
    g_strfreev(parts);
    g_free(number);
    g_free(text);
    return filled;
}

static gboolean open_engine(GstDarbexumMix *self, gint64 now) {
    guint8 told[256];
    gchar *text = config_text(self, now);
    if (!text) return FALSE;
    g_mutex_lock(&self->lock);
    gint32 code = darbexum_open(&self->engine, (const guint8 *)text, strlen(text), told, sizeof told);
    if (!code) {
        self->output = (darbexum_output_t){.size = sizeof self->output};
        darbexum_output(&self->engine, &self->output);
        darbexum_time(&self->engine, &self->open_at);
        guint64 most = 0;
        for (gsize stream = 0; stream < darbexum_streams(&self->engine); stream++) {
            darbexum_stream_t spec = {.size = sizeof spec};
            darbexum_stream(&self->engine, stream, &spec);
            /* A slot is due `latency` after its media time, and a block needs the slot in which it ends. */
            most = MAX(most, (guint64)spec.latency + spec.frames);
        }
        self->latency = most + self->output.frames;
        self->blocks = 0;
        self->announced = self->closed = FALSE;
        for (GList *it = self->ways; it; it = it->next) ((Way *)it->data)->ended = FALSE;
    }
    g_mutex_unlock(&self->lock);
    g_free(text);
    if (code) GST_ELEMENT_ERROR(self, RESOURCE, SETTINGS, ("config: %s", (gchar *)told), (NULL));
    return !code;
}

/* Opens the engine again at the reading at which playing begins, if the configuration asks for it. */
static gboolean open_now(GstDarbexumMix *self) {
    GstClock *clock = gst_element_get_clock(GST_ELEMENT(self));
    if (!self->media_clock || !clock || self->blocks) {
        if (clock) gst_object_unref(clock);
        return TRUE;
    }
    gint64 now = reading_of(self, clock);
    gst_object_unref(clock);
    return open_engine(self, now);
}

static void stop(GstDarbexumMix *self) {
    g_mutex_lock(&self->lock);
    self->running = FALSE;
    wake(self);
    g_mutex_unlock(&self->lock);
    gst_pad_stop_task(self->src);
}

static GstStateChangeReturn change_state(GstElement *element, GstStateChange transition) {
    GstDarbexumMix *self = GST_DARBEXUM_MIX(element);
    if (transition == GST_STATE_CHANGE_READY_TO_PAUSED && !open_engine(self, 0)) return GST_STATE_CHANGE_FAILURE;
    if (transition == GST_STATE_CHANGE_PAUSED_TO_PLAYING && !open_now(self)) return GST_STATE_CHANGE_FAILURE;
    if (transition == GST_STATE_CHANGE_PLAYING_TO_PAUSED || transition == GST_STATE_CHANGE_PAUSED_TO_READY) stop(self);
    GstStateChangeReturn changed = GST_ELEMENT_CLASS(gst_darbexum_mix_parent_class)->change_state(element, transition);
    if (changed == GST_STATE_CHANGE_FAILURE) return changed;
    if (transition == GST_STATE_CHANGE_READY_TO_PAUSED || transition == GST_STATE_CHANGE_PLAYING_TO_PAUSED)
        changed = GST_STATE_CHANGE_NO_PREROLL;
    if (transition == GST_STATE_CHANGE_PAUSED_TO_PLAYING && !self->closed) {
        self->running = TRUE;
        gst_pad_start_task(self->src, task, self, NULL);
    }
    if (transition == GST_STATE_CHANGE_PAUSED_TO_READY) {
        g_mutex_lock(&self->lock);
        darbexum_free(&self->engine);
        g_mutex_unlock(&self->lock);
    }
    return changed;
}

/* --- properties --- */

#define COUNT(name, field) name, G_TYPE_UINT64, (guint64)c.field

static GstStructure *stats_of_stream(GstDarbexumMix *self, gsize stream) {
    darbexum_counts_t c = {.size = sizeof c};
    darbexum_stream_t spec = {.size = sizeof spec};
    darbexum_counts(&self->engine, stream, &c);
    darbexum_stream(&self->engine, stream, &spec);
    GstStructure *stats = gst_structure_new("stream", COUNT("arrived", arrived), COUNT("taken", taken), COUNT("double", double_),
        COUNT("unlike", unlike), COUNT("off-grid", off_grid), COUNT("late", late), COUNT("ahead", ahead),
        COUNT("wrong-source", wrong_source), COUNT("got", got), COUNT("lost", lost), COUNT("restarts", restarts), NULL);
    for (guint8 path = 0; path < spec.paths; path++) {
        darbexum_path_counts_t c = {.size = sizeof c};
        gchar name[] = "path-0";
        darbexum_path_counts(&self->engine, stream, path, &c);
        name[5] = (gchar)('0' + path);
        GstStructure *found = gst_structure_new("path", COUNT("offered", offered), COUNT("sent", sent), COUNT("bad", bad),
            COUNT("wrong-type", wrong_type), COUNT("wrong-length", wrong_length), NULL);
        gst_structure_set(stats, name, GST_TYPE_STRUCTURE, found, NULL);
        gst_structure_free(found);
    }
    return stats;
}

static GstStructure *stats_of(GstDarbexumMix *self) {
    g_mutex_lock(&self->lock);
    GstStructure *stats = gst_structure_new("application/x-darbexum-stats", "datagrams", G_TYPE_UINT64, self->blocks, NULL);
    for (gsize stream = 0; stream < darbexum_streams(&self->engine); stream++) {
        gchar *name = g_strdup_printf("stream-%" G_GSIZE_FORMAT, stream);
        GstStructure *found = stats_of_stream(self, stream);
        gst_structure_set(stats, name, GST_TYPE_STRUCTURE, found, NULL);
        gst_structure_free(found);
        g_free(name);
    }
    g_mutex_unlock(&self->lock);
    return stats;
}

/* The action signal change-gains. */
static gint64 change_gains(GstDarbexumMix *self, gint64 at, GVariant *gains) {
    static const gint32 none;
    gsize len;
    if (!gains || !g_variant_is_of_type(gains, G_VARIANT_TYPE("ai"))) return DARBEXUM_BAD_SHAPE;
    const gint32 *row_by_row = g_variant_get_fixed_array(gains, &len, sizeof *row_by_row);
    g_mutex_lock(&self->lock);
    gint64 code = at < 0 ? darbexum_next_block_start(&self->engine, &at) : 0;
    if (code == 0) code = darbexum_change_gains(&self->engine, at, len ? row_by_row : &none, len);
    g_mutex_unlock(&self->lock);
    return code < 0 ? code : at;
}

static void set_property(GObject *object, guint id, const GValue *value, GParamSpec *spec) {
    GstDarbexumMix *self = GST_DARBEXUM_MIX(object);
    g_mutex_lock(&self->lock);
    switch (id) {
    case PROP_CONFIG: g_free(self->config), self->config = g_value_dup_string(value); break;
    case PROP_LOCATION: g_free(self->location), self->location = g_value_dup_string(value); break;
    case PROP_MEDIA_CLOCK: self->media_clock = g_value_get_boolean(value); break;
    case PROP_OFFSET: self->offset = g_value_get_int64(value); break;
    default: G_OBJECT_WARN_INVALID_PROPERTY_ID(object, id, spec);
    }
    g_mutex_unlock(&self->lock);
}

static void get_property(GObject *object, guint id, GValue *value, GParamSpec *spec) {
    GstDarbexumMix *self = GST_DARBEXUM_MIX(object);
    switch (id) {
    case PROP_CONFIG: g_value_set_string(value, self->config); break;
    case PROP_LOCATION: g_value_set_string(value, self->location); break;
    case PROP_MEDIA_CLOCK: g_value_set_boolean(value, self->media_clock); break;
    case PROP_OFFSET: g_value_set_int64(value, self->offset); break;
    case PROP_STATS: g_value_take_boxed(value, stats_of(self)); break;
    default: G_OBJECT_WARN_INVALID_PROPERTY_ID(object, id, spec);
    }
}

static void finalize(GObject *object) {
    GstDarbexumMix *self = GST_DARBEXUM_MIX(object);
    darbexum_free(&self->engine);
    g_mutex_clear(&self->lock);
    g_free(self->config);
    g_free(self->location);
    G_OBJECT_CLASS(gst_darbexum_mix_parent_class)->finalize(object);
}

static void gst_darbexum_mix_class_init(GstDarbexumMixClass *class) {
    GObjectClass *object = G_OBJECT_CLASS(class);
    GstElementClass *element = GST_ELEMENT_CLASS(class);
    const GParamFlags writable = G_PARAM_READWRITE | G_PARAM_STATIC_STRINGS | GST_PARAM_MUTABLE_READY;
    object->set_property = set_property;
    object->get_property = get_property;
    object->finalize = finalize;
    g_object_class_install_property(object, PROP_CONFIG, g_param_spec_string("config", "Configuration",
        "The text of the configuration (TOML); @NOW@ in it is replaced by the clock reading at which playing begins", NULL, writable));
    g_object_class_install_property(object, PROP_LOCATION, g_param_spec_string("location", "Location",
        "The file of the configuration, if it is not given as a text", NULL, writable));
    g_object_class_install_property(object, PROP_MEDIA_CLOCK, g_param_spec_boolean("media-clock", "Media clock",
        "The pipeline's clock is the media clock (PTP); if not, readings begin at the configuration's open_at", FALSE, writable));
    g_object_class_install_property(object, PROP_OFFSET, g_param_spec_int64("offset", "Offset",
        "Nanoseconds that are added to the clock", G_MININT64 / 4, G_MAXINT64 / 4, 0, writable));
    g_object_class_install_property(object, PROP_STATS, g_param_spec_boxed("stats", "Statistics",
        "The counts of all streams and paths", GST_TYPE_STRUCTURE, G_PARAM_READABLE | G_PARAM_STATIC_STRINGS));
    /* change-gains(at, gains) -> the time from which the gains are in force, or a code of darbexum.h. `at` is a media time, or
     * -1 for the next block; `gains` is a GVariant of type ai, row by row, in units of 1/65,536. */
    g_signal_new_class_handler("change-gains", G_TYPE_FROM_CLASS(class), G_SIGNAL_RUN_LAST | G_SIGNAL_ACTION,
        G_CALLBACK(change_gains), NULL, NULL, NULL, G_TYPE_INT64, 2, G_TYPE_INT64, G_TYPE_VARIANT);
    element->request_new_pad = request_pad;
    element->release_pad = release_pad;
    element->change_state = change_state;
    gst_element_class_add_static_pad_template(element, &sink_template);
    gst_element_class_add_static_pad_template(element, &src_template);
    gst_element_class_set_static_metadata(element, "Darbexum mixer", "Mixer/Network/RTP/Audio",
        "Merges the paths of AES67 and ST 2110-30 streams (ST 2022-7), aligns and mixes them, by a proved engine",
        "Darbexum maintainers");
    GST_DEBUG_CATEGORY_INIT(darbexum_debug, "darbexummix", 0, "Darbexum mixer");
}

static void gst_darbexum_mix_init(GstDarbexumMix *self) {
    g_mutex_init(&self->lock);
    self->src = gst_pad_new_from_static_template(&src_template, "src");
    gst_pad_set_query_function(self->src, src_query);
    gst_pad_set_event_function(self->src, src_event);
    gst_pad_use_fixed_caps(self->src);
    gst_element_add_pad(GST_ELEMENT(self), self->src);
    GST_OBJECT_FLAG_SET(self, GST_ELEMENT_FLAG_REQUIRE_CLOCK);
}

static gboolean plugin_init(GstPlugin *plugin) {
    return gst_element_register(plugin, "darbexummix", GST_RANK_NONE, GST_TYPE_DARBEXUM_MIX);
}

#define PACKAGE "darbexum"
GST_PLUGIN_DEFINE(GST_VERSION_MAJOR, GST_VERSION_MINOR, darbexum, "Receives and mixes AES67 and ST 2110-30 audio", plugin_init,
    "0.3.0", GST_LICENSE_UNKNOWN, "darbexum", "Unknown package origin")
