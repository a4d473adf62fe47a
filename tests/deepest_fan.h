/* The fan that takes most stack: the library parts a fan level by level, by turns by the far end of the middle slot's
 * line and by the mean of all far ends, until fewer than 12 lines are left. Here every middle slot has the northernmost
 * ray that is left, so nothing is parted off, and every mean takes off the northern half: after 12 levels 16 rays are
 * left. All rays stand in one leaf and end just east of it. Whoever includes it has included the header first. */
#ifndef DEEPEST_FAN_H
#define DEEPEST_FAN_H

enum { FAN_RAYS = 1000, FAN_LEVELS = 12, FAN_WEST = 8192, FAN_SIDE = 2048, FAN_HUB = FAN_WEST + FAN_SIDE / 2 };

/* The ray of each slot, counted from the north. */
static void order_rays(unsigned ray_of[FAN_RAYS])
{
    unsigned list[FAN_RAYS], count = FAN_RAYS, first = 0, level, i;

    for (i = 0; i < FAN_RAYS; i++) {
        list[i] = i;
        ray_of[i] = FAN_RAYS;
    }
    for (level = FAN_LEVELS; level > 0; level -= 2) {
        unsigned north = count / 2, given = 1, kept = 0;

        ray_of[list[count / 2]] = first;
        for (i = 0; i < count; i++) {
            if (ray_of[list[i]] != FAN_RAYS)
                continue;
            if (given < north)
                ray_of[list[i]] = first + given++;
            else
                list[kept++] = list[i];
        }
        first += north;
        count = kept;
    }
    for (i = 0; i < count; i++)
        ray_of[list[i]] = first++;
}

static uint64_t insert_ray(const struct boundary_map *map, unsigned ray)
{
    return boundary_map_insert(BOUNDARY_MAP_LENT(map), FAN_HUB, FAN_HUB, FAN_WEST + FAN_SIDE,
                               (uint16_t)(FAN_WEST + FAN_SIDE - 2 - 2 * ray), 1, 2);
}

#endif
