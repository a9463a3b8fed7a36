# What is asked: a formula over a table, with the options of all jobs.

# Cells that the program takes as missing, and those that it reads as numbers.
is_missing <- function(cells) is.na(cells) | trimws(cells, whitespace = "[ \t]") %in% c("", "NA")

is_number_text <- function(cells) {
    grepl("^[+-]?([0-9]+/0*[1-9][0-9]*|([0-9]+\\.?[0-9]*|\\.[0-9]+)([eE][+-]?[0-9]+)?)$", trimws(cells, whitespace = "[ \t]"))
}

# A column as R's fits take it: numbers, dates and times among them, or a factor with the levels in R's order.
as_taken <- function(column, name) {
    if (inherits(column, c("Date", "POSIXct", "difftime"))) column <- as.numeric(column)
    if (is.numeric(column)) {
        if (any(is.infinite(column))) stop("the column ", name, " has an infinite number", call. = FALSE)
        return(as.numeric(column))
    }
    if (!is.atomic(column)) stop("the column ", name, " has no numbers or texts", call. = FALSE)
    levels <- if (is.factor(column)) levels(column) else levels(factor(as.character(column)))
    cells <- as.character(column)
    factor(cells, levels = intersect(levels, cells))
}

# What the program is told in place of a factor's levels, by level: itself, where it sorts them as R does and reads them as these texts. Else a
# code that it sorts so.
codes_of <- function(levels, number) {
    is_read <- grepl("^[ -;=-~]+$", levels) & !is_missing(levels) & trimws(levels) == levels
    if (all(is_read) && identical(levels, sort(levels, method = "radix")) && !all(is_number_text(levels))) return(stats::setNames(levels, levels))
    stats::setNames(sprintf("<%d.%0*d>", number, nchar(length(levels)), seq_along(levels)), levels)
}

# The arguments of a call that are looked up in its table, and then where its formula was made, as in lm; where R ends with an error then, in
# the function that calls.
looked_up <- function(call, formula, data, caller) {
    of <- function(name) {
        found <- tryCatch(eval(call[[name]], data, environment(formula)), error = function(fault) {
            tryCatch(eval(call[[name]], data, caller), error = function(same) stop(conditionMessage(fault), call. = FALSE))
        })
        # The name of a column stays one.
        if (name == "weights" && is.name(call[[name]]) && as.character(call[[name]]) %in% names(data)) as.character(call[[name]]) else found
    }
    list(weights = of("weights"), subset = of("subset"), offset = of("offset"), offset_call = call[["offset"]])
}

# The rule for records with missing cells, by its name.
na_rule <- function(na.action) {
    if (is.null(na.action)) na.action <- getOption("na.action", "na.omit")
    known <- list(na.omit = stats::na.omit, na.exclude = stats::na.exclude, na.fail = stats::na.fail)
    name <- if (is.character(na.action)) na.action[1] else names(Find(function(it) identical(it, na.action), known))
    if (is.function(na.action)) name <- names(known)[vapply(known, identical, NA, na.action)]
    if (length(name) != 1 || !name %in% names(known)) stop("na.action is na.omit, na.exclude or na.fail", call. = FALSE)
    name
}

# The numbers of the records that `subset` takes, of so many.
taken_records <- function(subset, count, names) {
    if (is.null(subset)) return(seq_len(count))
    if (is.logical(subset) && length(subset) != count) stop("subset has ", length(subset), " values beside ", count, " records", call. = FALSE)
    found <- if (is.character(subset)) match(subset, names) else seq_len(count)[subset]
    found[!is.na(found)]
}

# The weights as values and what they are called: a column, or numbers beside the records.
weights_of <- function(weights, data, count) {
    if (is.null(weights)) return(NULL)
    if (is.character(weights) && length(weights) == 1) {
        if (!weights %in% names(data)) stop("There is no column '", weights, "' for the weights", close_to(weights, names(data)), call. = FALSE)
        return(list(label = weights, values = data[[weights]]))
    }
    if (length(weights) != count) stop(length(weights), " weights stand beside ", count, " records", call. = FALSE)
    list(label = "(weights)", values = as.vector(weights))
}

# How many records there are: those of the table, or of the response where there is none.
record_count <- function(formula, data) if (is.null(data)) NROW(eval(formula[[2]], environment(formula))) else nrow(data)

# R's model frame of a formula with the records of a subset, none of them left out; an offset beside the formula stands in it, too.
frame_of <- function(formula, data, rows, offset) {
    words <- list(formula, data = if (is.null(data)) environment(formula) else data, subset = rows, na.action = stats::na.pass, drop.unused.levels = FALSE)
    if (!is.null(offset)) words$offset <- offset
    do.call(stats::model.frame, words)
}

# A frame without the levels that none of its records has, as model.frame leaves them out.
with_used_levels <- function(frame) {
    for (name in names(frame)[vapply(frame, is.factor, NA)]) {
        column <- frame[[name]]
        if (length(unique(column[!is.na(column)])) == nlevels(column)) next
        frame[[name]] <- column[, drop = TRUE]
        if (!is.null(attr(column, "contrasts"))) warning("contrasts dropped from factor ", name, " due to missing levels", call. = FALSE)
    }
    frame
}

# A formula over a table. `data` has the columns that the program is handed, `codes` the levels as it is told them, `labels` what its columns are
# in R, and `frame` the model frame of the records that are kept, where R has one. With `predicts` a record may lack its response.
model_of <- function(formula, data, by = list(), contrasts = NULL, pivots = NULL, program = NULL, na.action = NULL, digits = NULL, predicts = FALSE) {
    if (is.character(contrasts) && is.null(names(contrasts))) contrasts <- match.arg(contrasts, names(contrast_names))
    if (!is.null(digits) && !(is.numeric(digits) && length(digits) == 1 && digits >= 1 && digits <= 15)) stop("digits is a number from 1 to 15", call. = FALSE)
    check_formula(formula)
    rule <- na_rule(na.action)
    smooth <- has_smooth(formula[[3]])
    full <- formula
    if (!is.null(data)) full <- dotless(formula, data)
    count <- record_count(full, data)
    if (!is.null(by$offset) && !length(by$offset) %in% c(1, count)) stop("the offset has ", length(by$offset), " values beside ", count, " records", call. = FALSE)
    if (!is.null(by$offset)) by$offset <- rep_len(as.vector(by$offset), count)
    rows <- taken_records(by$subset, count, rownames(data))
    if (!length(rows)) stop("subset takes no record", call. = FALSE)
    weights <- weights_of(by$weights, data, count)
    own <- full
    own[[3]] <- without_smooths(full[[3]])
    frame <- tryCatch(frame_of(own, data, rows, by$offset), error = identity)
    has_frame <- !inherits(frame, "error")
    known <- character()
    column <- function(name) {
        values <- if (has_frame && name %in% names(frame)) frame[[name]] else if (name %in% names(data)) data[[name]] else get0(name, environment(formula))
        if (!has_frame || !name %in% names(frame)) {
            if (!is.atomic(values) || NROW(values) != count) return(NULL)
            values <- if (is.matrix(values)) values[rows, , drop = FALSE] else values[rows]
        }
        if (is.matrix(values)) return(values)
        if (is.logical(values) && identical(as.name(name), full[[2]])) values <- as.numeric(values)
        for (note in setdiff(column_notes(values, name), known)) warning(note, call. = FALSE)
        known <<- c(known, column_notes(values, name))
        as_taken(values, name)
    }
    computed <- function(part, label) {
        values <- frame[[label]]
        if (is.matrix(values)) return(unclass(values))
        if (is.logical(values) && identical(part, full[[2]])) values <- as.numeric(values)
        as_taken(values, label)
    }
    if (!has_frame && !is_all_told(full)) stop(unknown_names(frame, own, data), call. = FALSE)
    told <- spoken(full, column, if (has_frame) computed, digits)
    if (!is.null(weights)) {
        put <- told$put(weights$label, as_taken(weights$values[rows], weights$label))
        told[c("table", "labels")] <- put[c("table", "labels")]
        weights$name <- put$name
    }
    if (!is.null(by$offset)) {
        put <- told$put("(offset)", as.numeric(by$offset[rows]))
        told[c("table", "labels")] <- put[c("table", "labels")]
        told$asked <- paste0(told$asked, " + offset(`", put$name, "`)")
    }
    if (!length(told$table)) told$table <- list(x = rep(NA, length(rows)))
    model <- list(
        formula = formula, asked = told$asked, response = told$response, data = as.data.frame(told$table, optional = TRUE, stringsAsFactors = FALSE),
        labels = told$labels, known = setdiff(names(data), ""), lone_column = if (NCOL(data) == 1) data, codes = list(), weights = weights$label, weights_column = weights$name,
        contrasts = "treatment", decimals = told$decimals, worked_out = told$worked_out, computed = computed_note(told, digits), digits = digits,
        na_rule = rule, offset_call = by$offset_call, is_smooth = smooth, design = NULL, pivots_limit = pivots, program = program
    )
    rownames(model$data) <- if (is.null(data)) NULL else rownames(data)[rows]
    factors <- names(model$data)[vapply(model$data, is.factor, NA)]
    model$codes <- Map(function(name, number) codes_of(levels(model$data[[name]]), number), factors, seq_along(factors))
    model$units <- data_units(full, data)
    if (!has_frame) return(c(model, list(frame = NULL, no_frame = frame)))
    model <- with_design(model, frame, weights$values[rows], contrasts, predicts)
    model$variables <- variables_of(own, data, rows[model$kept])
    model
}

# The units of a table's columns, as an attribute of a column names them.
data_units <- function(formula, data) {
    found <- lapply(data[intersect(all.vars(formula), names(data))], function(column) {
        unit <- attr(column, "units")
        if (length(unit)) tryCatch(as.character(unit)[1], error = function(unclear) NULL)
    })
    unlist(found)
}

# The variables that stand to the right of a formula's sign, at these records: NULL where one has several columns.
variables_of <- function(formula, data, records) {
    found <- lapply(stats::setNames(nm = all.vars(formula[[3]])), function(name) {
        values <- if (name %in% names(data)) data[[name]] else get0(name, environment(formula))
        if (is.atomic(values) && is.null(dim(values)) && length(values) >= max(0, records)) values[records]
    })
    if (length(records) && !any(vapply(found, is.null, NA))) as.data.frame(found, optional = TRUE)
}

# A formula in which the columns of the table stand in the place of `.`.
dotless <- function(formula, data) {
    if (!"." %in% all.vars(formula[[3]])) return(formula)
    full <- stats::formula(stats::terms(formula, data = data, keep.order = TRUE, allowDotAsName = FALSE))
    environment(full) <- environment(formula)
    full
}

# Whether the program reads each call of a formula, so that it says what is wrong where R can't work the formula out.
is_all_told <- function(formula) {
    known <- c("~", "+", "-", "*", ":", "^", "(", "I", "offset", "qss", "factor")
    calls <- setdiff(all.names(formula), all.vars(formula))
    is.name(formula[[2]]) && all(calls %in% known)
}

# What is wrong with a formula that R can't work out: a name that is nowhere, or what R says.
unknown_names <- function(fault, formula, data) {
    lost <- Find(function(name) !name %in% names(data) && !exists(name, environment(formula)), setdiff(all.vars(formula), "."))
    if (is.null(lost)) return(conditionMessage(fault))
    paste0("There is no column '", lost, "'", close_to(lost, names(data)))
}

# A table as it is handed out: the codes of levels in their places.
table_for <- function(model, data = model$data) {
    for (name in names(model$codes)) data[[name]] <- unname(model$codes[[name]])[match(data[[name]], names(model$codes[[name]]))]
    data
}

# A text with the labels of columns and the levels in the places of their codes.
with_levels <- function(text, model) {
    if (!length(text)) return(text)
    codes <- c(character(), unlist(unname(model$codes)), stats::setNames(names(model$labels), model$labels))
    codes <- codes[startsWith(codes, "<")]
    found <- gregexpr("<(x[0-9]+|[0-9]+\\.[0-9]+)>", text)
    regmatches(text, found) <- lapply(regmatches(text, found), function(it) {
        at <- match(it, codes)
        ifelse(is.na(at), it, names(codes)[at])
    })
    text
}

fit_words <- function(job, asked, options) {
    options <- options[!vapply(options, is.null, NA)]
    values <- vapply(options, function(it) paste(vapply(it, number_text, ""), collapse = ","), "")
    c(job, paste0("--formula=", asked), paste0("--", names(options), "=", values, recycle0 = TRUE))
}

# The lines of a job over a model. `first` and `last` are its own options, before and behind those of all jobs.
lines_of <- function(model, job, first = list(), last = list(), data = model$data) {
    shared <- list(weights = model$weights_column, contrasts = model$contrasts, pivots = model$pivots_limit)
    words <- fit_words(job, model$asked, c(first, shared, last))
    tryCatch(run_quantreg(words, table_for(model, data), model$program), quantreg_error = function(fault) {
        advice <- advice_of(fault, c(model, list(words = words)))
        fault$line <- with_levels(fault$line, model)
        fault$fields <- lapply(fault$fields, with_levels, model)
        fault$message <- paste(c(with_levels(fault$message, model), with_levels(advice, model)), collapse = "\n")
        stop(fault)
    })
}

# The report of a job over a model, with the names of R's design.
report_of <- function(model, job, first = list(), last = list(), data = model$data) {
    report <- read_report(lines_of(model, job, first, last, data))
    report$names <- names_in_r(model, with_levels(report$names, model))
    report
}

# What `answer` gives, or where a number outgrows the program at one of these places, what `otherwise` gives for the fault.
rescued <- function(places, answer, otherwise) {
    tryCatch(answer, quantreg_error = function(fault) {
        if (fault$status != 7 || !any(startsWith(paste0("", fault$fields$place), places))) stop(fault)
        otherwise(fault)
    })
}
