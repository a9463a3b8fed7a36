# Whole runs of `process` over 0 to 1 on tables of R's packages whose numbers have up to 15 digits.
#
#     QUANTREG=/path/to/quantreg Rscript whole.R
#
# What each report has to be (its pivots, segments, bytes, and the first eight digits of its SHA-256) was taken from a program of its own
# that shares no line with the proved one. It ends with status 1 where a report is another. A package that R lacks is told by a line.
library(quantreg.exact)

# Package, table, formula, pivots, segments, bytes, digest. A table goes out as write.csv(.., row.names = FALSE) prints it.
cases <- read.table(header = TRUE, sep = "|", strip.white = TRUE, text = "
package  | table    | formula                              | pivots | segments | bytes  | digest
quantreg | engel    | foodexp ~ income                     | 271    | 270      | 177158 | 14e3f238
mgcv     | columb   | y ~ area + home.value + income       | 72     | 59       | 50525  | 67a90ef9
MASS     | UScereal | potassium ~ calories + protein + fat | 108    | 99       | 76528  | 4711a601
quantreg | barro    | ttrad2 ~ y.net                       | 194    | 186      | 104834 | 0d62c9eb
survival | heart    | id ~ start + stop + age              | 227    | 224      | 212404 | 1d392bb2
carData  | UN       | infantMortality ~ fertility          | 222    | 217      | 114403 | 2713fe1d
MASS     | fgl      | Fe ~ RI + Na + Mg                    | 329    | 308      | 254483 | 56459bc7
")

table_of <- function(package, name) {
    room <- new.env()
    # survival keeps heart in a file with others, so that data() doesn't know it by name in each version.
    suppressWarnings(utils::data(list = name, package = package, envir = room))
    if (exists(name, room, inherits = FALSE)) get(name, room) else getExportedValue(package, name)
}

# What a report comes to, in the words of a case.
outcome <- function(case) {
    files <- tempfile(c("table", "report", "fault"))
    on.exit(unlink(files))
    write.csv(table_of(case$package, case$table), files[1], row.names = FALSE)
    words <- c("process", paste0("--formula=", case$formula), "--lo=0", "--hi=1")
    status <- system2(find_quantreg(), shQuote(words), stdin = files[1], stdout = files[2], stderr = files[3])
    if (status != 0) return(c(paste("status", status), readLines(files[3], warn = FALSE)))
    lines <- readLines(files[2])
    digest <- system2("sha256sum", files[2], stdout = TRUE)
    c(
        sub("pivots ", "", grep("^pivots ", lines, value = TRUE)), sum(startsWith(lines, "segment ")), file.size(files[2]),
        substr(digest, 1, 8)
    )
}

if (!nzchar(Sys.which("sha256sum"))) {
    cat("skipped: whole runs, since sha256sum was not found\n")
    quit(status = 0)
}
failed <- 0
for (at in seq_len(nrow(cases))) {
    case <- cases[at, ]
    name <- paste0(case$package, "::", case$table)
    if (!requireNamespace(case$package, quietly = TRUE)) {
        cat("skipped: ", name, ", since R has no package ", case$package, "\n", sep = "")
        next
    }
    found <- outcome(case)
    wanted <- as.character(unlist(case[c("pivots", "segments", "bytes", "digest")]))
    same <- identical(found, wanted)
    if (!same) cat(name, "wants", wanted, "and has", found, "\n")
    failed <- failed + !same
}
cat(nrow(cases), "whole runs,", failed, "failed\n")
quit(status = if (failed > 0) 1 else 0)
