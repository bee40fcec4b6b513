# awk -f docs/picture.awk crates.txt > docs/crates.svg: which crate depends on which. A line is drawn only to a crate on which no
# other dependency depends. A crate is one row above its highest dependency. The kit's own crates aren't shown, nor which crate is a
# static library.

/^#/ || !NF { next }

{
    name = $1
    sub(/:$/, "", name)
    crates[++count] = name
    known[name] = 1
    for (i = 2; i <= NF; i++)
        on[name, $i] = 1
}

# Whether a crate depends on another by way of a third.
function passes(a, b,   k) {
    for (k = 1; k <= count; k++)
        if (((a, crates[k]) in on) && ((crates[k], b) in on))
            return 1
    return 0
}

function level_of(name,   k, below, level) {
    level = 0
    for (k = 1; k <= count; k++)
        if ((name, crates[k]) in on) {
            below = level_of(crates[k]) + 1
            if (below > level)
                level = below
        }
    return level
}

END {
    width = 112; height = 30; gap = 26; rise = 46
    for (k = 1; k <= count; k++) {
        level = level_of(crates[k])
        row[crates[k]] = level
        size[level]++
        if (level > top) top = level
        if (size[level] > widest) widest = size[level]
    }
    whole = widest * (width + gap) + gap
    high = (top + 1) * (height + rise) + gap
    for (k = 1; k <= count; k++) {
        name = crates[k]; level = row[name]
        x[name] = whole / 2 + (placed[level]++ - size[level] / 2) * (width + gap) + gap / 2
        y[name] = gap + (top - level) * (height + rise)
    }
    printf "<svg xmlns=\"http://www.w3.org/2000/svg\" viewBox=\"0 0 %d %d\" font-family=\"sans-serif\" font-size=\"13\">\n", whole, high
    printf "<rect width=\"%d\" height=\"%d\" fill=\"white\"/>\n", whole, high
    for (a = 1; a <= count; a++)
        for (b = 1; b <= count; b++)
            if (((crates[a], crates[b]) in on) && !passes(crates[a], crates[b]))
                printf "<path d=\"M%d %d C%d %d %d %d %d %d\" fill=\"none\" stroke=\"#789\"/>\n", \
                    x[crates[a]] + width / 2, y[crates[a]] + height, x[crates[a]] + width / 2, y[crates[a]] + height + rise / 2, \
                    x[crates[b]] + width / 2, y[crates[b]] - rise / 2, x[crates[b]] + width / 2, y[crates[b]]
    for (k = 1; k <= count; k++) {
        name = crates[k]
        printf "<rect x=\"%d\" y=\"%d\" width=\"%d\" height=\"%d\" rx=\"4\" fill=\"#eef3f8\" stroke=\"#456\"/>\n", x[name], y[name], width, height
        printf "<text x=\"%d\" y=\"%d\" text-anchor=\"middle\">%s</text>\n", x[name] + width / 2, y[name] + 20, name
    }
    print "</svg>"
}
