# awk -f night.awk crates/night/args, with WISHES='NAME=NUMBER ..' in the environment: the numbers of a night, in the order of the
# program's arguments. The file has those of the usual night, and WISHES names what is to be other, in upper or lower case. A wrong wish
# gets a sentence and the list of the names, and status 1.
BEGIN {
    count = split("p n share0 share1 share2 ceiling0 ceiling1 ceiling2 news map station every files frames lose", name, " ")
    split("data bytes of a packet|packets of a frame|packets that queue 0, the news pages, is owed|packets that queue 1, the map files, is owed|" \
        "packets that queue 2, the station data, is owed|the most that queue 0 gets|the most that queue 1 gets|the most that queue 2 gets|" \
        "bytes of a news page|bytes of a map file|bytes of a station's data|frames from one news page to the next|map files of the job|" \
        "frames of the night, a quarter of them an hour|50: each 50th packet is lost on the way; 0: none is", means, "|")
    for (k = 1; k <= count; k++) place[name[k]] = k
}

{ number[NR] = usual[NR] = $1 }

function wrong(wish, why) {
    printf "night: `%s` %s\nnames:\n", wish, why
    for (k = 1; k <= count; k++) printf "  %-10s %-52s %s\n", name[k], means[k], usual[k]
    exit 1
}

END {
    many = split(ENVIRON["WISHES"], wish, " ")
    for (i = 1; i <= many; i++) {
        if (wish[i] !~ /^[^=]*=[0-9]+$/ || length(wish[i]) - index(wish[i], "=") > 6)
            wrong(wish[i], "is not NAME=NUMBER with a whole number below 1000000.")
        k = place[tolower(substr(wish[i], 1, index(wish[i], "=") - 1))]
        if (!k) wrong(wish[i], "begins with a name that is not in the list.")
        number[k] = substr(wish[i], index(wish[i], "=") + 1)
    }
    for (k = 1; k <= count; k++) print number[k]
}
