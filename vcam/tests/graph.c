/* The graph of the media node, as Linux answers for one: what it has, ids that it doesn't have, arrays that are too short, and
 * pointers to nothing. */
#include "client.h"
#include <sys/stat.h>
#include <sys/sysmacros.h>

static int media;
static void *const nowhere = (void *)0x10;

static struct media_v2_entity entities[3];
static struct media_v2_interface interfaces[2];
static struct media_v2_pad pads[3];
static struct media_v2_link links[3];
static struct media_v2_topology topology;

/* Pointers to the arrays above, with so many places in each. */
static struct media_v2_topology with_room(unsigned places) {
    struct media_v2_topology it = {.ptr_entities = (uintptr_t)entities, .ptr_interfaces = (uintptr_t)interfaces};
    it.ptr_pads = (uintptr_t)pads;
    it.ptr_links = (uintptr_t)links;
    it.num_entities = it.num_interfaces = it.num_pads = it.num_links = places;
    it.reserved1 = it.reserved2 = it.reserved3 = it.reserved4 = ~0u;
    return it;
}

static int is_pad(unsigned id, unsigned entity, unsigned flags) {
    for (unsigned i = 0; i < topology.num_pads; i++)
        if (pads[i].id == id)
            return pads[i].entity_id == entity && pads[i].flags == flags && pads[i].index == 0;
    return 0;
}

static void check_topology(void) {
    struct stat status;
    memset(entities, 0xff, sizeof entities);
    memset(links, 0xff, sizeof links);
    topology = with_room(2);
    CHECK(!ioctl(media, MEDIA_IOC_G_TOPOLOGY, &topology) && !stat(VIDEO_PATH, &status));
    CHECK(topology.num_entities == 2 && topology.num_interfaces == 1 && topology.num_pads == 2 && topology.num_links == 2);
    CHECK(!topology.reserved1 && !topology.reserved2 && !topology.reserved3 && !topology.reserved4);
    CHECK(entities[2].id == ~0u && links[2].id == ~0u); /* behind the places */
    CHECK(entities[0].function == MEDIA_ENT_F_CAM_SENSOR && entities[1].function == MEDIA_ENT_F_IO_V4L);
    CHECK(interfaces[0].intf_type == MEDIA_INTF_T_V4L_VIDEO);
    CHECK(makedev(interfaces[0].devnode.major, interfaces[0].devnode.minor) == status.st_rdev);
    CHECK(links[0].source_id == interfaces[0].id && links[0].sink_id == entities[1].id);
    CHECK(is_pad(links[1].source_id, entities[0].id, MEDIA_PAD_FL_SOURCE));
    CHECK(is_pad(links[1].sink_id, entities[1].id, MEDIA_PAD_FL_SINK));
}

static void check_room(void) {
    struct media_v2_topology it = {0}, none = with_room(0), one = with_room(1);
    CHECK(!ioctl(media, MEDIA_IOC_G_TOPOLOGY, &it) && it.num_entities == 2 && it.num_links == 2);
    REFUSED(ioctl(media, MEDIA_IOC_G_TOPOLOGY, &none), ENOSPC);
    memset(entities, 0xff, sizeof entities);
    REFUSED(ioctl(media, MEDIA_IOC_G_TOPOLOGY, &one), ENOSPC);
    CHECK(entities[0].function == MEDIA_ENT_F_CAM_SENSOR && entities[1].id == ~0u);
    CHECK(one.num_entities == 1 && one.reserved1 == ~0u); /* where it is refused its struct is as it was */
    one = with_room(2);
    one.num_links = 1;
    REFUSED(ioctl(media, MEDIA_IOC_G_TOPOLOGY, &one), ENOSPC);
}

static void check_entities(int video) {
    struct media_entity_desc it = {.id = MEDIA_ENT_ID_FLAG_NEXT};
    for (unsigned i = 0; i < 2; i++) {
        memset(it.reserved, 0xff, sizeof it.reserved);
        CHECK(!ioctl(media, MEDIA_IOC_ENUM_ENTITIES, &it) && it.id == entities[i].id && it.type == entities[i].function);
        CHECK(!strcmp(it.name, entities[i].name) && it.pads == 1 && it.links == !i && it.flags == entities[i].flags);
        CHECK(!it.reserved[0] && !it.reserved[3] && it.dev.major == (i ? interfaces[0].devnode.major : 0));
        CHECK(!ioctl(media, MEDIA_IOC_ENUM_ENTITIES, &it) && it.id == entities[i].id);
        it.id |= MEDIA_ENT_ID_FLAG_NEXT;
    }
    REFUSED(ioctl(media, MEDIA_IOC_ENUM_ENTITIES, &it), EINVAL);
    for (unsigned id = 0; id < 9; id++) {
        struct media_entity_desc other = {.id = id};
        if (id != entities[0].id && id != entities[1].id)
            REFUSED(ioctl(media, MEDIA_IOC_ENUM_ENTITIES, &other), EINVAL);
    }
    REFUSED(ioctl(media, MEDIA_IOC_ENUM_ENTITIES, nowhere), EFAULT);
    REFUSED(ioctl(video, MEDIA_IOC_ENUM_ENTITIES, &it), ENOTTY);
}

static void check_links(void) {
    struct media_pad_desc pad[2];
    struct media_link_desc link[2];
    for (unsigned i = 0; i < 2; i++) {
        struct media_links_enum it = {.entity = entities[i].id, .pads = pad, .links = link, .reserved = {1, 1, 1, 1}};
        memset(pad, 0xff, sizeof pad);
        memset(link, 0xff, sizeof link);
        CHECK(!ioctl(media, MEDIA_IOC_ENUM_LINKS, &it) && !it.reserved[0] && !it.reserved[3]);
        CHECK(pad[0].entity == entities[i].id && pad[0].flags == (i ? MEDIA_PAD_FL_SINK : MEDIA_PAD_FL_SOURCE));
        CHECK(pad[1].entity == ~0u && link[1].flags == ~0u);
        CHECK(link[0].source.entity == (i ? ~0u : entities[0].id)); /* a link is told where it begins */
        CHECK(i || (link[0].sink.entity == entities[1].id && link[0].flags == links[1].flags));
        it.pads = nowhere;
        REFUSED(ioctl(media, MEDIA_IOC_ENUM_LINKS, &it), EFAULT);
        it.pads = 0;
        it.links = 0;
        CHECK(!ioctl(media, MEDIA_IOC_ENUM_LINKS, &it));
    }
    struct media_links_enum bad = {.entity = entities[0].id, .links = nowhere}, unknown = {.entity = 2};
    REFUSED(ioctl(media, MEDIA_IOC_ENUM_LINKS, &bad), EFAULT);
    REFUSED(ioctl(media, MEDIA_IOC_ENUM_LINKS, &unknown), EINVAL);
    REFUSED(ioctl(media, MEDIA_IOC_ENUM_LINKS, nowhere), EFAULT);
}

static void check_pointers(void) {
    struct media_v2_topology it[] = {with_room(2), with_room(2), with_room(2), with_room(2)};
    it[0].ptr_entities = it[1].ptr_interfaces = it[2].ptr_pads = it[3].ptr_links = (uintptr_t)nowhere;
    for (int i = 0; i < 4; i++)
        REFUSED(ioctl(media, MEDIA_IOC_G_TOPOLOGY, &it[i]), EFAULT);
    REFUSED(ioctl(media, MEDIA_IOC_G_TOPOLOGY, nowhere), EFAULT);
}

int main(void) {
    int video = open(VIDEO_PATH, O_RDWR);
    media = open(MEDIA_PATH, O_RDWR);
    check_topology();
    check_room();
    check_topology(); /* what came before has changed nothing of it */
    check_entities(video);
    check_links();
    check_pointers();
    return report();
}
