"""The rules of the game: numbers, and words. Made by dev/rules of what crates/rules writes, and not changed by hand."""

MOST_FILES = 4
MOST_MATCHES = 1000000
MOST_CYCLES = 1000000000
MOST_FIRST = 1000000
MOST_SEED = 18446744073709551615
MOST_PROFILE = 2
MOST_SOURCE_BYTES = 1048576
MOST_NAME_BYTES = 31
MOST_CONSTANT = 2147483647
MOST_NAMES = 64
MOST_NESTED = 64
MATCHES_DEFAULT = 1
CYCLES_DEFAULT = 500000
FIRST_DEFAULT = 1
SEED_DEFAULT = 1
PROFILE_DEFAULT = 1
MOST_ROBOTS = 4
LAST_PLACE = 9999
LAST_METRE = 999
UPDATE_CYCLES = 15
DEADLY = 100
WALL_DAMAGE = 2
KNOCK_DAMAGE = 2
MOST_RANGE = 700
LAST_RING = 400
LAST_RING_DAMAGE = 3
MIDDLE_RING = 200
MIDDLE_RING_DAMAGE = 5
INNER_RING = 50
INNER_RING_DAMAGE = 10
MOST_SPEED = 100
TURNING_SPEED = 50
ACCELERATION = 10
NEAR = 10
MOST_RESOLUTION = 10
MISSILE_SPEED = 50
MOST_MISSILES = 2
MOST_RANDOM_LIMIT = 32767
WORDS = {
    "keyword": "else if return while",
    "type": "auto int long register",
    "reserved": "break case char continue default do double extern float for goto short sizeof static struct switch typedef union unsigned void",
    "intrinsic": "scan cannon drive damage speed loc_x loc_y rand sqrt sin cos tan atan",
}
