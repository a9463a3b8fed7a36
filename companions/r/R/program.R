# Finding and running the program, and its fault lines as conditions.

#' The path of the program: the one named, else that of the variable QUANTREG, else quantreg on the path.
find_quantreg <- function(program = NULL) {
    named <- if (!is.null(program)) program else Sys.getenv("QUANTREG", "quantreg")
    found <- if (file.exists(named) && !dir.exists(named)) normalizePath(named) else unname(Sys.which(named))
    if (!nzchar(found)) {
        brings <- ": the Debian package quantreg brings it; or name it by program= or the variable QUANTREG"
        stop("no program ", named, brings, call. = FALSE)
    }
    found
}

# The text of a name or a field as it was before printing, which writes control bytes and backslashes as \x and two digits.
unescaped <- function(text) {
    found <- gregexpr("\\\\x[0-9a-f]{2}", text)
    regmatches(text, found) <- lapply(regmatches(text, found), function(codes) {
        vapply(codes, function(code) intToUtf8(strtoi(substring(code, 3), 16L)), "")
    })
    text
}

# The condition of a run that ended without a report, with the fields of its line.
quantreg_error <- function(status, line) {
    parts <- regmatches(line, regexec("^quantreg: (\\w+): (\\w+)(.*)$", line))[[1]]
    fields <- list()
    rest <- if (length(parts)) parts[4] else ""
    # A name may have blanks, and is the last field of each line that has one.
    while (nzchar(rest)) {
        key <- sub("^ (\\w+)=.*$", "\\1", rest)
        rest <- substring(rest, nchar(key) + 3)
        value <- if (key %in% c("column", "factor", "name", "path", "option")) rest else sub(" .*$", "", rest)
        rest <- substring(rest, nchar(value) + 1)
        fields[[key]] <- unescaped(value)
    }
    said <- if (nzchar(line)) line else "no line on standard error"
    structure(
        class = c("quantreg_error", "error", "condition"),
        list(
            message = paste0("status ", status, ": ", said), call = NULL, status = status, line = line,
            group = if (length(parts)) parts[2] else NA, name = if (length(parts)) parts[3] else NA, fields = fields
        )
    )
}

# The lines of the report of a run with these words over a data frame. Ends with a quantreg_error where there is no report.
run_quantreg <- function(words, data, program) {
    room <- tempfile("quantreg")
    dir.create(room)
    on.exit(unlink(room, recursive = TRUE))
    at <- file.path(room, c("table", "out", "err"))
    write.csv(data, at[1], row.names = FALSE, fileEncoding = "UTF-8")
    status <- system2(find_quantreg(program), shQuote(words), stdin = at[1], stdout = at[2], stderr = at[3])
    if (status != 0) {
        stop(quantreg_error(status, paste(readLines(at[3], warn = FALSE, encoding = "UTF-8"), collapse = "\n")))
    }
    readLines(at[2], encoding = "UTF-8")
}

# A number as text: a text as it stands, a double by 15 digits, as write.csv writes it.
number_text <- function(value) if (is.character(value)) value else format(value, digits = 15, trim = TRUE, scientific = FALSE)
