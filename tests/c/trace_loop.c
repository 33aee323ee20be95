/* Compiled by the toolchain's own clang, so that both sides come from one compiler: rust/trace-speed. */
#include "trace_loop.h"

static uint64_t ahead(uint64_t a, uint64_t b) { return a > b ? a - b : 0; }

static struct ogr_trace_channel counted(struct ogr_trace_channel channel, uint16_t count)
{
    const uint16_t step = (uint16_t)(count - channel.last);
    return (struct ogr_trace_channel){channel.total + step, count};
}

static struct ogr_trace_lead raised(struct ogr_trace_lead lead, uint64_t ticks, uint32_t at)
{
    return lead.ticks < ticks ? (struct ogr_trace_lead){ticks, at} : lead;
}

static struct ogr_trace sampled(struct ogr_trace trace, uint16_t x, uint16_t y)
{
    const uint32_t at = trace.samples;
    const struct ogr_trace_channel first = counted(trace.first, x), second = counted(trace.second, y);
    return (struct ogr_trace){at + 1, first, second, raised(trace.first_leads, ahead(first.total, second.total), at),
                              raised(trace.second_leads, ahead(second.total, first.total), at)};
}

/* The first sample of all follows itself. */
static void begin(struct ogr_trace *trace, const uint16_t *first, const uint16_t *second, size_t len)
{
    if (trace->samples == 0 && len > 0) {
        trace->first.last = first[0];
        trace->second.last = second[0];
    }
}

struct ogr_trace trace_by_value(struct ogr_trace trace, const uint16_t *first, const uint16_t *second, size_t len)
{
    begin(&trace, first, second, len);
    for (size_t i = 0; i < len; i++)
        trace = sampled(trace, first[i], second[i]);
    return trace;
}

static void count(struct ogr_trace_channel *channel, uint16_t count)
{
    channel->total += (uint16_t)(count - channel->last);
    channel->last = count;
}

static void raise_to(struct ogr_trace_lead *lead, uint64_t ticks, uint32_t at)
{
    if (lead->ticks < ticks) {
        lead->ticks = ticks;
        lead->at = at;
    }
}

struct ogr_trace trace_in_place(struct ogr_trace trace, const uint16_t *first, const uint16_t *second, size_t len)
{
    begin(&trace, first, second, len);
    for (size_t i = 0; i < len; i++) {
        count(&trace.first, first[i]);
        count(&trace.second, second[i]);
        raise_to(&trace.first_leads, ahead(trace.first.total, trace.second.total), trace.samples);
        raise_to(&trace.second_leads, ahead(trace.second.total, trace.first.total), trace.samples);
        trace.samples++;
    }
    return trace;
}
