// A text adventure: rooms, things and a lamp that burns down. Commands are north, south, east, west, look, take THING,
// drop THING, light, score and quit. The first letter of a direction suffices.
#include <stdio.h>

struct Room {
    const char *name;
    const char *about;
    int exits[4];
    int dark;
};

struct Thing {
    const char *name;
    int place;
    int worth;
};

const char *directions[4] = {"north", "south", "east", "west"};

struct Room rooms[6] = {
    {"Jetty", "Planks over grey water. A path leads north.", {1, -1, -1, -1}, 0},
    {"Yard", "A yard with a well. Doors are east and west.", {-1, 0, 2, 3}, 0},
    {"Store", "Shelves up to the ceiling.", {-1, -1, 4, 1}, 0},
    {"Hall", "A cold hall. Stairs lead north, down into the dark.", {5, -1, 1, -1}, 0},
    {"Loft", "Hay, and a window that you cannot reach.", {-1, -1, -1, 2}, 1},
    {"Vault", "Brick arches. Water drips.", {-1, 3, -1, -1}, 1}
};

struct Thing things[4] = {{"lamp", 2, 0}, {"rope", 1, 5}, {"coin", 5, 20}, {"book", 4, 10}};

char line[40];
int here, light, oil = 14, moves, carried = 99;

static void say(const char *s)
{
    while (*s) putchar(*s++);
}

static void number(int n)
{
    if (n >= 10) number(n / 10);
    putchar('0' + n % 10);
}

static int read_line(void)
{
    int n = 0, c = getchar();
    if (c == -1) return 0;
    for (; c != '\n' && c != -1; c = getchar()) if (n < 39) line[n++] = c;
    line[n] = 0;
    return 1;
}

// Where the word that stands at `at` of the line ends, or 0 where it is another one.
static int word_at(int at, const char *word)
{
    while (*word && line[at] == *word) at++, word++;
    return *word || (line[at] && line[at] != ' ') ? 0 : at;
}

static int thing_at(int at)
{
    for (int t = 0; t < 4; t++) if (word_at(at, things[t].name)) return t;
    return -1;
}

static int seen(void)
{
    return !rooms[here].dark || (light && oil > 0 && (things[0].place == carried || things[0].place == here));
}

static void look(void)
{
    if (!seen()) {
        say("It is dark.\n");
        return;
    }
    say(rooms[here].name); say(". "); say(rooms[here].about); putchar('\n');
    for (int t = 0; t < 4; t++)
        if (things[t].place == here) {
            say("There is a "); say(things[t].name); say(".\n");
        }
}

static void score(void)
{
    int sum = 0;
    for (int t = 0; t < 4; t++) if (things[t].place == carried) sum += things[t].worth;
    say("You have "); number(sum); say(" of 35 points in "); number(moves); say(" moves.\n");
}

static void go(int way)
{
    int to = rooms[here].exits[way];
    if (to < 0) say("There is no way.\n");
    else {
        here = to;
        look();
    }
}

static void take(int at, int from, int to, const char *done)
{
    int t = thing_at(at);
    if (t < 0 || things[t].place != from || !seen()) say("You cannot.\n");
    else {
        things[t].place = to;
        say(done);
    }
}

static int obey(void)
{
    for (int way = 0; way < 4; way++)
        if (word_at(0, directions[way]) || (line[0] == directions[way][0] && !line[1])) {
            go(way);
            return 1;
        }
    if (word_at(0, "look")) look();
    else if (word_at(0, "take")) take(5, here, carried, "Taken.\n");
    else if (word_at(0, "drop")) take(5, carried, here, "Dropped.\n");
    else if (word_at(0, "light")) light = 1, say(things[0].place == carried ? "The lamp burns.\n" : "What?\n");
    else if (word_at(0, "score")) score();
    else if (word_at(0, "quit")) return 0;
    else say("I do not know that.\n");
    return 1;
}

int main(void)
{
    look();
    while (read_line() && obey()) {
        moves++;
        if (light && oil > 0 && --oil == 0) say("The lamp goes out.\n");
    }
    score();
    return 0;
}
