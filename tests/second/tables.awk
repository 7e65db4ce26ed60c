# tables.c from tests/tables/libvpx.txt: a line holds a table's name and its 256 numbers.
BEGIN { print "/* From tests/tables/libvpx.txt by tables.awk. */\n#include \"tables.h\"" }
/^#/ { next }
{
    printf "\nconst int16_t %s[256] = {", tolower($1)
    for (i = 2; i <= NF; i++)
        printf "%s%d,", (i - 2) % 16 ? " " : "\n    ", $i
    print "\n};"
}
