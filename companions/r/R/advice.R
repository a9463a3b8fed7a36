# What a fault line means for who made the call. The program counts bytes, records and columns; here the name that is counted is said.

overflow_advice <- function(fault, model) {
    long <- digits_told(model)
    c(
        "A number outgrew the program's, which have numerators and denominators of 38 digits.", long,
        if (length(model$worked_out) || isTRUE(model$is_by_design)) "Columns are worked out by R: digits = 6 in the call rounds them.",
        paste("Round columns of many digits, as round(x, 2), or write decimals as whole numbers of a smaller unit;",
            "ask for a smaller range of quantiles; or give a shorter critical value by crit =.")
    )
}

# How many digits a number of the table has: those between its first and its last that aren't 0, by the decimals of the whole column.
digits_in <- function(values) {
    values <- abs(values[is.finite(values) & values != 0])
    if (!length(values)) return(0)
    text <- sub("\\.?0+$", "", formatC(values, digits = 15, format = "fg", flag = "#"))
    decimals <- max(0, nchar(sub("^[^.]*\\.?", "", text)))
    nchar(format(ceiling(max(values)), scientific = FALSE)) + decimals
}

# How many digits all columns may have, by the number of those beside the intercept, so that tables of random numbers are answered: as
# bench/limits/digits.py measures it.
digits_that_fit <- c(15, 12, 9, 7, 6, 5, 4, 4)

# The column of a table that has the most digits, beside what fits.
digits_told <- function(model) {
    numbers <- Filter(is.numeric, model$data)
    counts <- vapply(numbers, digits_in, 0)
    if (!length(counts)) return(NULL)
    columns <- max(1, length(counts) - 1)
    name <- names(which.max(counts))
    paste0("The column ", name, " has numbers of ", max(counts), " digits; in ", columns, if (columns == 1) " column" else " columns",
        " of random numbers ", digits_that_fit[min(columns, 8)], " digits fit.")
}

# The question whether a known word was meant, where one is close.
close_to <- function(word, known) {
    far <- utils::adist(word, known, ignore.case = TRUE)
    if (!length(known) || min(far) > max(1, nchar(word) / 3)) return("")
    paste0("; did you mean '", known[which.min(far)], "'?")
}

# The word of the formula at an offset, which counts bytes from 0.
word_at <- function(formula, offset) {
    bytes <- charToRaw(enc2utf8(formula))
    rest <- rawToChar(bytes[seq_along(bytes) > as.integer(offset)])
    found <- regmatches(rest, regexpr("^(`[^`]*`|[\\w.]+|.)", rest, perl = TRUE))
    gsub("`", "", c(found, "")[1])
}

# That cells were read with another separator than the file has, where the table has one column.
separator_advice <- function(data) {
    if (is.null(data) || !any(grepl(";|\t", c(names(data), as.character(utils::head(data[[1]])))))) return(NULL)
    "The table has one column, with semicolons or tabs in it: read the file by read.csv2 or read.delim."
}

odd_cells <- function(column) {
    cells <- unique(as.character(column[!is.na(column)]))
    some_of(dQuote(cells[!is_number_text(cells)], FALSE))
}

unknown_name_advice <- function(fault, model) {
    word <- word_at(model$asked, fault$fields$offset)
    paste0("There is no column '", word, "'", close_to(word, model$known))
}

syntax_advice <- function(fault, model) {
    paste0("'", word_at(model$asked, fault$fields$offset), "' can't stand there: ", model$asked,
        "; a formula has + - : * ^ . ( ), factor(), I(), offset() and qss()")
}

factor_advice <- function(fault, model) {
    counts <- lengths(model$codes)
    if (!length(counts)) return("A design has 128 columns at most.")
    most <- names(which.max(counts))
    paste0("A design has 128 columns at most, and the factor ", most, " has ", max(counts), " levels",
        if (mean(is_number_text(levels(model$data[[most]]))) >= 0.5) paste0(", many of which are numbers; no numbers are ", odd_cells(model$data[[most]])))
}

no_rows_advice <- function(fault, model) {
    gaps <- vapply(model$data, function(column) sum(is.na(column)), 0L)
    paste("No record has all cells. Missing are", paste0(gaps[gaps > 0], " of ", names(gaps)[gaps > 0], collapse = ", "))
}

dependent_advice <- function(fault, model) {
    values <- strsplit(fault$fields$combination, ",", fixed = TRUE)[[1]]
    told <- paste(values[values != "0"], "times column", which(values != "0"))
    paste0("The columns are dependent: ", paste(told, collapse = " plus "), " is 0 in every record. Leave out one of them.")
}

rows_advice <- function(fault, model) {
    paste0("The table has ", nrow(model$data), " records, and the program takes 16,384 at most: subset = sample(", nrow(model$data), ", 16384) fits so many of them.")
}

# The line doesn't say which option it is: one without a value, or one that this program doesn't know.
option_advice <- function(fault, model) {
    empty <- sub("^--(.*)=$", "\\1", grep("^--[^=]*=$", model$words, value = TRUE))
    if (length(empty)) return(paste("The argument", empty[1], "has no value."))
    paste0("The program ", find_quantreg(model$program), " doesn't know one of the options ", paste(sub("=.*", "", model$words[-1]), collapse = ", "), ": is it of another version?")
}

# What is said of a fault, by its name.
advice_by_name <- list(
    UnknownName = unknown_name_advice, Syntax = syntax_advice, TooManyColumns = factor_advice, NoRows = no_rows_advice,
    Dependent = dependent_advice, Overflow = overflow_advice, TooManyRows = rows_advice, BadOption = option_advice,
    ResponseNotNumeric = function(fault, model) paste("The response is no column of numbers; it has", odd_cells(model$data[[model$response]])),
    WeightNotNumeric = function(fault, model) paste("The weights are no column of numbers; it has", odd_cells(model$data[[model$weights_column]])),
    ArithNotNumeric = function(fault, model) paste0(fault$fields$name, " is no column of numbers; it has ", odd_cells(model$data[[fault$fields$name]])),
    PivotLimit = function(fault, model) "pivots = gives a greater limit, to 10,000,000.",
    BadRange = function(fault, model) "A quantile is from 0 to 1, lo is not above hi, and a lambda is above 0.",
    BadNumber = function(fault, model) paste("The option", fault$fields$option, "is no such number."),
    NoSuchColumn = function(fault, model) "Columns are counted from 1, as in the names of a fit, and the last one is their number.",
    NothingToPredict = function(fault, model) paste0("A record to predict has NA as its ", label_of(model$formula[[2]]), " and all other cells that are used.")
)

# What to say of a fault over a model: by its names, or what the manual says of the line; nothing where there is no line.
advice_of <- function(fault, model) {
    maker <- advice_by_name[[fault$name]]
    told <- tryCatch(if (!is.null(maker)) maker(fault, model), error = function(unclear) NULL)
    line <- match(paste0(fault$group, ": ", fault$name), names(fault_sentences), nomatch = 0)
    separator <- if (fault$group %in% c("table", "formula", "design")) separator_advice(model$lone_column)
    if (length(separator)) separator else if (length(told)) told else unname(fault_sentences[line][!is.na(fault_sentences[line])])
}
