/*
 * wires.c: what may befall a link. A port that is held sends nothing, and what
 * it has to send waits. On a link that is cut it sends as before, and all that
 * is or comes on the link is lost. A link is cut both ways, or one way alone:
 * what the node named sends is then lost, and what it gets is not.
 */
#include "wires.h"

#include "line.h"
#include "net.h"
#include "told.h"

/* Which port of which node; its link is there. */
struct end {
    uint32_t node, port;
};

static struct end read_end(void)
{
    struct end end;

    end.node = line_node();
    end.port = line_port();
    if (!nodes[end.node].wires[end.port].linked)
        line_refuse("a port with a link", nodes[end.node].name);
    return end;
}

static struct wire *wire_of(struct end end)
{
    return &nodes[end.node].wires[end.port];
}

static void hold(bool held)
{
    struct end end = read_end();

    line_end();
    wire_of(end)->held = held;
    told_wire(end.node, end.port,
              held ? "is held: its wire is silent" : "is released");
    net_start_wires();
}

void wire_hold(void)
{
    hold(true);
}

void wire_release(void)
{
    hold(false);
}

/* What is on it is lost too. */
static void cut(struct wire *wire)
{
    wire->cut = true;
    wire->lost = wire->busy;
}

void wire_cut(void)
{
    struct end end = read_end();
    struct wire *wire = wire_of(end);
    bool one_way = line_is("out");

    line_end();
    cut(wire);
    if (!one_way)
        cut(&nodes[wire->peer].wires[wire->peer_port]);
    told_wire(end.node, end.port,
              one_way ? "is cut off: what it sends is lost"
                      : "is cut off: what it sends and gets is lost");
}

void wire_mend(void)
{
    struct end end = read_end();
    struct wire *wire = wire_of(end);

    line_end();
    wire->cut = nodes[wire->peer].wires[wire->peer_port].cut = false;
    told_wire(end.node, end.port, "has its link again");
}
