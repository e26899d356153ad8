// A text adventure: rooms, things and a lamp that burns down. Commands are north, south, east, west, look, take THING,
// drop THING, light, score and quit. The first letter of a direction suffices.
#include <stdbool.h>
#include <stdio.h>
#include <string.h>

enum way { NORTH, SOUTH, EAST, WEST, WAYS };
enum place { JETTY, YARD, STORE, HALL, LOFT, VAULT, CARRIED = 99, NOWHERE = -1 };

#define COUNT(a)    ((int)(sizeof(a) / sizeof((a)[0])))

typedef struct {
    const char *name;
    const char *about;
    int exits[WAYS];
    bool dark;
} Room;

typedef struct {
    const char *name;
    int place;
    int worth;
} Thing;

static const char *const directions[WAYS] = { [NORTH] = "north", [SOUTH] = "south", [EAST] = "east", [WEST] = "west" };

static const Room rooms[] = {
    {"Jetty", "Planks over grey water. A path leads north.", {1, -1, -1, -1}, 0},
    {"Yard", "A yard with a well. Doors are east and west.", {-1, 0, 2, 3}, 0},
    {"Store", "Shelves up to the ceiling.", {-1, -1, 4, 1}, 0},
    {"Hall", "A cold hall. Stairs lead north, down into the dark.", {5, -1, 1, -1}, 0},
    {"Loft", "Hay, and a window that you cannot reach.", {-1, -1, -1, 2}, 1},
    {"Vault", "Brick arches. Water drips.", {-1, 3, -1, -1}, 1}
};

static Thing things[] = {{"lamp", 2, 0}, {"rope", 1, 5}, {"coin", 5, 20}, {"book", 4, 10}};

static char line[40];
static int here = JETTY, oil = 14, moves;
static bool light;

static int read_line(void)
{
    int n = 0, c = getchar();
    if (c == EOF) return 0;
    for (; c != '\n' && c != EOF; c = getchar()) if (n < (int)sizeof line - 1) line[n++] = c;
    line[n] = 0;
    return 1;
}

// Where the word that stands at `at` of the line ends, or 0 where it is another one.
static int word_at(int at, const char *word)
{
    while (*word && line[at] == *word) at++, word++;
    return *word || (line[at] && line[at] != ' ') ? 0 : at;
}

static int thing_at(int at)
{
    for (int t = 0; t < COUNT(things); t++) if (word_at(at, things[t].name)) return t;
    return -1;
}

static int seen(void)
{
    return !rooms[here].dark || (light && oil > 0 && (things[0].place == CARRIED || things[0].place == here));
}

static void look(void)
{
    if (!seen()) {
        printf("It is dark.\n");
        return;
    }
    printf("%s. %s\n", rooms[here].name, rooms[here].about);
    for (int t = 0; t < COUNT(things); t++)
        if (things[t].place == here) {
            printf("There is a %s.\n", things[t].name);
        }
}

static void score(void)
{
    int sum = 0;
    for (int t = 0; t < COUNT(things); t++) if (things[t].place == CARRIED) sum += things[t].worth;
    printf("You have %d of 35 points in %d moves.\n", sum, moves);
}

static void go(int way)
{
    int to = rooms[here].exits[way];
    if (to < 0) printf("There is no way.\n");
    else {
        here = to;
        look();
    }
}

static void take(int at, int from, int to, const char *done)
{
    int t = thing_at(at);
    if (t < 0 || things[t].place != from || !seen()) printf("You cannot.\n");
    else {
        things[t].place = to;
        printf("%s", done);
    }
}

static int obey(void)
{
    for (int way = 0; way < WAYS; way++)
        if (word_at(0, directions[way]) || (line[0] == directions[way][0] && !line[1])) {
            go(way);
            return 1;
        }
    if (word_at(0, "look")) look();
    else if (word_at(0, "take")) take(5, here, CARRIED, "Taken.\n");
    else if (word_at(0, "drop")) take(5, CARRIED, here, "Dropped.\n");
    else if (word_at(0, "light")) light = true, printf("%s", things[0].place == CARRIED ? "The lamp burns.\n" : "What?\n");
    else if (word_at(0, "score")) score();
    else if (word_at(0, "quit")) return 0;
    else printf("I do not know that.\n");
    return 1;
}

int main(void)
{
    look();
    while (read_line() && obey()) {
        moves++;
        if (light && oil > 0 && --oil == 0) printf("The lamp goes out.\n");
    }
    score();
    return 0;
}
