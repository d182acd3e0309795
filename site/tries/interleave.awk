# Every interleaving of the lines of the files that are given, each into a file in the folder "into", with the line "last" behind it.
FNR == 1 { files++ }
{ line[files, ++count[files]] = $0; lines++ }
END { go_on(0, "") }

function go_on(done, so_far,   f, path) {
    if (done == lines) {
        path = into "/" ++written
        print so_far last >path
        close(path)
        return
    }
    for (f = 1; f <= files; f++) {
        if (taken[f] == count[f]) continue
        taken[f]++
        go_on(done + 1, so_far line[f, taken[f]] "\n")
        taken[f]--
    }
}
