# Answers worked out from processes where the program ends with status 7, by the fractions of any size of the package gmp.
#
# The program's rank tests and rank intervals end where a number outgrows it, and in older programs scores and rearrangements did too; the
# fits from which they are worked out have shorter numbers. Each result says in its notes that it isn't the proved program's.

has_gmp <- function() requireNamespace("gmp", quietly = TRUE)

# Ends with the fault, and with what would have answered, where gmp isn't there.
need_gmp <- function(fault) {
    if (has_gmp()) return(invisible())
    fault$message <- paste0(fault$message, "\nWith R's package gmp (r-cran-gmp) this is worked out with numbers of any size.")
    stop(fault)
}

# The design, the responses less their offsets, and the weights of a model, as fractions: the rows of its certificate at the median.
exact_rows <- function(model, data = model$data) {
    line <- paste(lines_of(model, "certify", list(lo = "1/2", hi = "1/2"), data = data), collapse = "")
    from <- regexpr('"rows":[', line, fixed = TRUE) + nchar('"rows":[')
    to <- regexpr('],"segments"', line, fixed = TRUE) - 1
    rows <- strsplit(substring(line, from, to), "},{", fixed = TRUE)[[1]]
    entries <- strsplit(gsub('"', "", sub('^.*"x":\\[([^]]*)\\].*$', "\\1", rows), fixed = TRUE), ",", fixed = TRUE)
    field <- function(name) gmp::as.bigq(sub(paste0('^.*"', name, '":"([^"]*)".*$'), "\\1", rows))
    columns <- lapply(seq_along(entries[[1]]), function(column) gmp::as.bigq(vapply(entries, `[`, "", column)))
    list(columns = columns, y = field("y"), weight = field("up1"))
}

bigq_sum <- function(values) if (length(values)) sum(values) else gmp::as.bigq(0)

# The solution of a square system whose columns are lists of fractions, by elimination; an error where it is singular.
solved <- function(columns, right) {
    size <- length(columns)
    table <- c(columns, list(right))
    for (at in seq_len(size)) {
        pivot <- at - 1 + which(table[[at]][at:size] != 0)[1]
        if (is.na(pivot)) stop("the columns are dependent", call. = FALSE)
        rows <- replace(seq_len(size), c(at, pivot), c(pivot, at))
        table <- lapply(table, function(column) column[rows])
        leading <- table[[at]]
        table <- lapply(table, function(column) {
            taken <- column[at] / leading[at]
            column <- column - leading * taken
            column[at] <- taken
            column
        })
    }
    table[[size + 1]]
}

# A model without some columns of its design, with entries as they are.
lesser_of <- function(model, rows, left_out) {
    others <- rows$columns[-left_out]
    names <- paste0("x", seq_along(others), recycle0 = TRUE)
    list(
        rows = rows, tested = rows$columns[left_out], others = others, asked = paste(c("y ~ 0", names), collapse = " + "),
        table = stats::setNames(lapply(others, as.character), names), weight = as.character(rows$weight), model = model
    )
}

# The process of a lesser model for a response.
lesser_process <- function(lesser, response, lo, hi) {
    table <- as.data.frame(c(list(y = as.character(response), w = lesser$weight), lesser$table))
    asked <- list(
        asked = lesser$asked, data = table, codes = list(), weights_column = "w", contrasts = "treatment", pivots_limit = lesser$model$pivots_limit,
        program = lesser$model$program
    )
    report_of(asked, "process", list(lo = lo, hi = hi))
}

# The Wilcoxon scores of a process over all quantiles: the integral of each rankscore, less its half.
wilcoxon_of <- function(report) {
    ends <- function(of) gmp::as.bigq(vapply(report$segments, `[[`, "", of))
    width <- ends("hi") - ends("lo")
    marks <- do.call(rbind, strsplit(vapply(report$segments, `[[`, "", "marks"), ""))
    basic <- do.call(rbind, lapply(report$segments, `[[`, "basic"))
    segment <- rep(seq_along(report$segments), vapply(report$segments, function(it) nrow(it$basic), 0L))
    area <- width[segment] * (gmp::as.bigq(basic[, "lo"]) + gmp::as.bigq(basic[, "hi"])) / 2
    row <- as.integer(rownames(basic))
    scores <- lapply(seq_len(report$records), function(record) {
        bigq_sum(width[marks[, record] == "1"]) + bigq_sum(area[row == record]) - gmp::as.bigq(1, 2)
    })
    do.call(c, scores)
}

# The scores of tested columns and the statistic of their rank test, as texts.
exact_rank_test <- function(model, tested) {
    rows <- exact_rows(model)
    lesser <- lesser_of(model, rows, tested)
    wilcoxon <- wilcoxon_of(lesser_process(lesser, rows$y, "0", "1"))
    scaled <- lapply(rows$columns, function(column) rows$weight * column)
    sums <- do.call(c, lapply(scaled, function(column) sum(column * wilcoxon)))
    if (any(sums[-tested] != 0)) stop("the Wilcoxon scores are not orthogonal to the columns that are not tested", call. = FALSE)
    gram <- lapply(scaled, function(one) do.call(c, lapply(scaled, function(other) sum(one * other))))
    list(scores = as.character(sums[tested]), statistic = as.character(12 * sum(sums * solved(gram, sums))))
}

# The steps of a prediction in ascending order of their values, as the job predict rearranges them.
rearranged_steps <- function(steps) {
    value <- gmp::as.bigq(steps$value)
    length <- gmp::as.bigq(steps$hi) - gmp::as.bigq(steps$lo)
    order <- seq_along(value)
    # Insertion keeps steps of one value in their order.
    for (at in order[-1]) {
        before <- order[seq_len(at - 1)]
        place <- sum(value[before] <= value[at])
        order[seq_len(at)] <- append(before, at, place)
    }
    ends <- gmp::as.bigq(steps$lo[1]) + cumsum(length[order])
    data.frame(lo = c(steps$lo[1], as.character(ends[-length(ends)])), hi = as.character(ends), value = as.character(value[order]))
}

# The predictions of a table's records without a response, from the process over the range.
exact_predictions <- function(model, lo, hi) {
    response <- model$response
    records <- unique(report_of(model, "predict", list(lo = lo, hi = lo))$predictions$record)
    process <- report_of(model, "process", list(lo = lo, hi = hi))
    asked <- model$data[records, , drop = FALSE]
    asked[[response]] <- 0
    if (!is.null(model$weights)) asked[[model$weights_column]] <- 1
    rows <- exact_rows(model, rbind(model$data, asked))
    last <- length(rows$y) - length(records)
    ends <- lapply(c(lo = "lo", hi = "hi"), function(of) vapply(process$segments, `[[`, "", of))
    steps <- lapply(seq_along(records), function(at) {
        # The response 0 less its offset stands in the certificate.
        entries <- do.call(c, lapply(rows$columns, function(column) column[last + at]))
        value <- lapply(process$segments, function(it) sum(entries * gmp::as.bigq(it$coef)) - rows$y[last + at])
        plain <- data.frame(ends, value = as.character(do.call(c, value)))
        both <- rbind(cbind(is_rearranged = FALSE, plain), cbind(is_rearranged = TRUE, rearranged_steps(plain)))
        cbind(record = records[at], both)
    })
    do.call(rbind, steps)
}
