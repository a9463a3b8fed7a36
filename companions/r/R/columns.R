# The table and the formula that the program is handed: a column for each name, and one or several for each call that R alone works out.

# A label of an expression, as R's model frames have it.
label_of <- function(part) paste(deparse(part, width.cutoff = 500L), collapse = " ")

# Whether a name can stand in the program's formulas without backticks, and a text in its tables as a level.
is_plain_name <- function(name) grepl("^([A-Za-z]|\\.[A-Za-z._])[A-Za-z0-9._]*$", name)

# The data frame of a call: a list or an environment is made one, and what can be none ends with a sentence.
data_of <- function(data) {
    if (is.null(data)) return(NULL)
    if (is.character(data) && length(data) == 1) stop("data is the text \"", data, "\", and no data frame: read the file first, as read.csv(\"", data, "\")", call. = FALSE)
    if (is.array(data)) stop("data is a matrix, and no data frame: as.data.frame(data) makes it one", call. = FALSE)
    if (is.environment(data)) data <- as.list(data)
    if (!is.list(data)) stop("data is of class ", class(data)[1], ", and no data frame", call. = FALSE)
    data <- as.data.frame(data, optional = TRUE)
    if (!ncol(data) || !nrow(data)) stop("the table is empty: it has ", nrow(data), " records and ", ncol(data), " columns", call. = FALSE)
    data
}

# Ends with a sentence where a formula has no response.
check_formula <- function(formula) {
    if (length(formula) < 3) stop("the formula ", label_of(formula), " has no response: write it before the sign, as y ~ x", call. = FALSE)
}

# Whether the program reads an expression as R does: names of numeric columns, numbers, + - * ^, parentheses, and a ratio of digits.
# Only one that leads may have a sign of its own.
is_arithmetic <- function(part, has_numbers, leads = TRUE) {
    if (is.name(part)) return(has_numbers(as.character(part)))
    if (is.numeric(part)) return(is_number_text(label_of(part)))
    if (!is.call(part)) return(FALSE)
    sign <- as.character(part[[1]])[1]
    inner <- function(at, leads) is_arithmetic(part[[at]], has_numbers, leads)
    if (length(part) == 2) {
        if (sign == "(") return(inner(2, TRUE))
        return(sign %in% c("+", "-") && leads && inner(2, FALSE))
    }
    if (length(part) != 3) return(FALSE)
    switch(sign,
        "+" = , "-" = , "*" = inner(2, leads) && inner(3, FALSE),
        "^" = (!is.call(part[[2]]) || identical(part[[2]][[1]], quote(`(`))) && inner(2, FALSE) && is.numeric(part[[3]]) && part[[3]] %in% 1:8,
        "/" = is_digits(if (leads) unsigned(part[[2]]) else part[[2]]) && is_digits(part[[3]]),
        FALSE
    )
}

unsigned <- function(part) if (is.call(part) && length(part) == 2 && as.character(part[[1]])[1] %in% c("+", "-")) part[[2]] else part

is_digits <- function(part) is.numeric(part) && grepl("^[0-9]+$", label_of(part)) && part > 0

# An expression with other names.
renamed <- function(part, names_of) {
    if (is.name(part)) return(as.name(names_of(as.character(part))))
    if (is.call(part)) part[-1] <- lapply(part[-1], renamed, names_of)
    part
}

# Whether an expression calls qss() anywhere.
has_smooth <- function(part) is.call(part) && (identical(part[[1]], quote(qss)) || any(vapply(as.list(part)[-1], has_smooth, NA)))

# A formula with the column of each smooth in its place.
without_smooths <- function(part) {
    if (!is.call(part)) return(part)
    if (identical(part[[1]], quote(qss))) return(part[[2]])
    part[-1] <- lapply(part[-1], without_smooths)
    part
}

# To how many decimals numbers are rounded that are to have so many digits, those of the greatest of them.
decimals_for <- function(values, digits) {
    most <- max(0, abs(values[is.finite(values)]))
    if (most == 0) 0 else digits - 1 - floor(log10(most))
}

# Columns of numbers to so many decimals each; those that have NA stay.
rounded <- function(values, decimals) {
    if (!is.matrix(values)) return(if (is.na(decimals[1])) values else round(as.vector(unclass(values)), decimals[1]))
    for (at in which(!is.na(decimals))) values[, at] <- round(values[, at], decimals[at])
    values
}

# What the program is told of a model: its formula as text, and the table with the name of each column, its label in R and how it was made.
#
# `column` gives the values of a name, NULL where it has none, and `computed` those of a call; it is NULL where R has none.
spoken <- function(formula, column, computed, digits = NULL) {
    table <- list()
    labels <- stats::setNames(character(), character())
    decimals <- list()
    worked_out <- character()
    moved <- list()
    offsets <- character()
    put_one <- function(label, values) {
        name <- if (is_plain_name(label)) label else names(labels)[match(label, labels)]
        if (is.na(name)) name <- paste0("<x", length(labels) + 1, ">")
        if (is.null(table[[name]])) {
            table[[name]] <<- values
            labels[name] <<- label
        }
        as.name(name)
    }
    # The symbol of a column, or the sum of those of a matrix, by the names that R gives its columns.
    put <- function(label, values) {
        if (is.null(values)) return(as.name(label))
        if (!is.matrix(values)) return(put_one(label, values))
        names <- if (ncol(values) == 1) "" else if (is.null(colnames(values))) seq_len(ncol(values)) else colnames(values)
        symbols <- Map(function(name, at) put_one(paste0(label, name), as.vector(values[, at])), names, seq_len(ncol(values)))
        if (length(symbols) == 1) symbols[[1]] else call("(", Reduce(function(left, right) call("+", left, right), unname(symbols)))
    }
    # A call that R works out, rounded where that is asked.
    make <- function(part) {
        label <- label_of(part)
        values <- computed(part, label)
        if (is.numeric(values)) {
            if (!is.null(digits)) {
                columns <- if (is.matrix(values)) seq_len(ncol(values)) else 1
                decimals[[label]] <<- vapply(columns, function(at) decimals_for(if (is.matrix(values)) values[, at] else values, digits), 0)
                shorter <- rounded(values, decimals[[label]])
                moved[[label]] <<- max(abs(unclass(values) - shorter), na.rm = TRUE)
                values <- shorter
            }
            worked_out <<- union(worked_out, label)
        }
        put(label, values)
    }
    names_of <- function(name) as.character(put(name, column(name)))
    # Where R has no values of a call the program reads it, and says what it lacks.
    has_numbers <- function(name) {
        values <- column(name)
        is.null(values) || is.null(computed) || (is.numeric(values) && !is.matrix(values))
    }
    walk <- function(part) {
        if (is.name(part)) return(put(as.character(part), column(as.character(part))))
        if (!is.call(part)) return(part)
        sign <- as.character(part[[1]])[1]
        if (sign == "offset") {
            if (label_of(part) %in% offsets) return(NULL)
            offsets <<- c(offsets, label_of(part))
            if (is_arithmetic(part[[2]], has_numbers)) return(renamed(part, names_of))
            return(call("offset", make(part)))
        }
        if (sign == "qss") return(if (is.name(part[[2]])) replace(part, 2, list(as.name(names_of(as.character(part[[2]]))))) else part)
        if (sign == "^" && length(part) == 3) return(call("^", walk(part[[2]]), part[[3]]))
        if (sign == "/" && length(part) == 3) return(nested(walk(part[[2]]), walk(part[[3]])))
        if (sign == "%in%") return(call(":", walk(part[[2]]), walk(part[[3]])))
        if (sign %in% c("+", "-", "*", ":", "(")) {
            parts <- lapply(as.list(part)[-1], walk)
            parts <- parts[!vapply(parts, is.null, NA)]
            return(if (length(parts) < length(part) - 1) parts[[1]] else as.call(c(part[[1]], parts)))
        }
        if (sign == "I" && length(part) == 2 && is_arithmetic(part[[2]], has_numbers)) return(renamed(part, names_of))
        if (sign == "factor" && length(part) == 2 && is.name(part[[2]]) && has_numbers(as.character(part[[2]]))) return(renamed(part, names_of))
        make(part)
    }
    bare <- formula[[2]]
    while (is.call(bare) && identical(bare[[1]], quote(`(`))) bare <- bare[[2]]
    response <- if (is.name(bare)) put(as.character(bare), column(as.character(bare))) else make(formula[[2]])
    right <- walk(formula[[3]])
    list(
        asked = label_of(call("~", response, right)), response = as.character(response), table = table, labels = labels,
        decimals = decimals, worked_out = worked_out, moved = moved, put = function(label, values) {
            name <- as.character(put_one(label, values))
            list(name = name, table = table, labels = labels)
        }
    )
}

# The terms of a/b: those of a, and b within all of their variables.
nested <- function(outer, inner) {
    variables <- lapply(all.vars(outer), as.name)
    call("(", call("+", outer, call(":", Reduce(function(left, right) call(":", left, right), variables), inner)))
}

# What was worked out by R, and how it was rounded, in one note.
computed_note <- function(told, digits) {
    if (!length(told$worked_out)) return(NULL)
    if (is.null(digits)) return(paste0("worked out by R, as columns of 15 digits: ", some_of(told$worked_out, 8)))
    rounding <- vapply(told$worked_out, function(label) {
        paste0(label, " to ", paste(unique(told$decimals[[label]]), collapse = " and "), " decimals, moved by ", format(told$moved[[label]], digits = 2), " at most")
    }, "")
    paste0("worked out by R and rounded to ", digits, " digits of the greatest value: ", paste(rounding, collapse = "; "))
}
