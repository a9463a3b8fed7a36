# The design of a fit, by R's model.matrix, and the contrasts of its factors.

contrast_names <- c(treatment = "contr.treatment", sas = "contr.SAS", sum = "contr.sum", helmert = "contr.helmert")

# The names of columns with each number of an arithmetic by its value, for the program writes 0.5 as 1/2, and without R's quotes and escapes.
by_value <- function(names) {
    number <- "(?<![A-Za-z0-9._])([0-9]+/[0-9]+|([0-9]+\\.?[0-9]*|\\.[0-9]+)([eE][+-]?[0-9]+)?)"
    computed <- grepl("I(", names, fixed = TRUE) | grepl("factor(", names, fixed = TRUE)
    found <- gregexpr(number, names[computed], perl = TRUE)
    regmatches(names[computed], found) <- lapply(regmatches(names[computed], found), function(it) format_values(fraction_value(it)))
    gsub("[`\\\\]", "", names)
}

format_values <- function(values) vapply(values, format, "", digits = 15)

# What a design codes by contrasts or indicators: factors, texts and truth values.
is_coded <- function(frame) vapply(frame, function(it) is.factor(it) || is.logical(it) || is.character(it), NA)

# The names of a design in R for those of the program, which have to be the same ones.
names_in_r <- function(model, names) {
    if (is.null(model$names)) return(names)
    ours <- by_value(names)
    theirs <- by_value(model$names)
    if (!identical(ours, theirs)) {
        stop("R codes the terms of this formula otherwise than the program: it has ", paste(setdiff(theirs, ours), collapse = ", "),
            " and not ", paste(setdiff(ours, theirs), collapse = ", "), call. = FALSE)
    }
    model$names
}

# The contrasts of a column as a matrix: those that are given, else its own, else those of R's options.
contrast_matrix <- function(column, given) {
    if (!is.factor(column)) column <- factor(column)
    made <- if (!is.null(given)) given else attr(column, "contrasts")
    if (is.null(made)) made <- getOption("contrasts")[[1 + is.ordered(column)]]
    if (is.matrix(made)) return(made)
    levels <- levels(column)
    (if (is.character(made)) get(made, mode = "function") else made)(levels)
}

# Which of the program's contrasts these are, by their numbers and the names of their columns; NA where it has none such.
contrast_word <- function(column, given) {
    found <- contrast_matrix(column, given)
    levels <- levels(if (is.factor(column)) column else factor(column))
    same <- vapply(contrast_names, function(name) {
        other <- get(name)(levels)
        identical(dim(found), dim(other)) && all(found == other) && identical(colnames(found), colnames(other))
    }, NA)
    c(names(contrast_names)[same], NA)[1]
}

# What model.matrix is told of contrasts: one of the program's for all factors, or a list of R's own kind.
contrasts_arg <- function(frame, contrasts) {
    if (is.null(contrasts) || is.list(contrasts)) return(contrasts)
    if (!is.character(contrasts) || !is.null(names(contrasts))) return(as.list(contrasts))
    factors <- names(frame)[is_coded(frame)]
    if (length(factors)) stats::setNames(rep(list(contrast_names[[contrasts]]), length(factors)), factors)
}

# Which variables stand in which terms, as in R's `factors`, with the variables by their names in the model frame.
variables_in <- function(terms) {
    factors <- attr(terms, "factors")
    if (!length(factors)) return(matrix(0, 0, 0))
    rownames(factors) <- vapply(as.list(attr(terms, "variables"))[-1], label_of, "")
    factors[rowSums(factors) > 0, , drop = FALSE]
}

# Whether the program codes each factor of each term as R does, by contrasts or by a column for each level, and has the columns in R's order.
is_coded_alike <- function(terms, frame) {
    factors <- variables_in(terms)
    if (!length(factors)) return(TRUE)
    columns <- vapply(frame[rownames(factors)], NCOL, 0L)
    coded <- rownames(factors) %in% names(frame)[is_coded(frame)]
    theirs <- factors
    if (!attr(terms, "intercept")) {
        first <- which((factors > 0) & coded)[1]
        if (!is.na(first)) theirs[first] <- 2
    }
    sets <- apply(factors > 0, 2, which, simplify = FALSE)
    is_alone <- lengths(sets) == 1
    first_alone <- which(is_alone & vapply(sets, function(it) coded[it[1]], NA))[1]
    for (term in seq_along(sets)) {
        # A term of several columns of one variable and others has them in another order here.
        if (!is_alone[term] && any(columns[sets[[term]]] > 1)) return(FALSE)
        for (variable in sets[[term]][coded[sets[[term]]]]) {
            others <- setdiff(sets[[term]], variable)
            has_contrasts <- if (length(others)) any(vapply(sets, setequal, NA, others)) else attr(terms, "intercept") || !term %in% first_alone
            if (theirs[variable, term] != 2 - has_contrasts) return(FALSE)
        }
    }
    TRUE
}

# A model with R's design beside it: the names of its columns, the frame, and which records are kept. Where the program would code a factor
# otherwise, it is handed the columns of that design as they are.
with_design <- function(model, frame, weight, contrasts, predicts) {
    if (is.null(weight)) weight <- rep(1, nrow(frame))
    is_text <- vapply(frame, is.character, NA)
    frame[is_text] <- lapply(frame[is_text], factor)
    for (name in intersect(names(model$decimals), names(frame))) frame[[name]] <- rounded(frame[[name]], model$decimals[[name]])
    is_whole <- stats::complete.cases(if (predicts) frame[-1] else frame) & !is.na(weight)
    gaps <- sum(!is_whole)
    if (model$na_rule == "na.fail" && gaps) stop("missing values in object: na.action is na.fail, and ", gaps, " records miss a cell", call. = FALSE)
    kept <- stats::complete.cases(frame) & !is.na(weight) & weight != 0
    model <- c(model, list(kept = kept, weight = weight[kept]))
    if (!any(kept)) return(model)
    all <- frame
    # The attributes of a column, such as its contrasts, stay with its records.
    frame <- with_used_levels(frame[kept, , drop = FALSE])
    terms <- attr(all, "terms")
    right <- frame[names(frame) %in% rownames(variables_in(terms))]
    given <- contrasts_arg(right, contrasts)
    model$frame <- frame
    model$terms <- terms
    coded <- names(right)[is_coded(right)]
    lone <- Filter(function(name) length(unique(right[[name]])) < 2, coded)
    words <- if (length(lone)) NULL else unique(vapply(coded, function(name) contrast_word(right[[name]], given[[name]]), ""))
    is_told <- length(words) <= 1 && !anyNA(words) && (model$is_smooth || is_coded_alike(terms, right))
    if (is_told && length(words)) model$contrasts <- words
    if (length(lone)) return(model)
    if (model$is_smooth) {
        if (is_told) return(model)
        stop("beside a smooth all factors have the same contrasts, one of treatment, sas, sum and helmert", call. = FALSE)
    }
    x <- stats::model.matrix(terms, frame, contrasts.arg = given)
    model$contrasts_used <- attr(x, "contrasts")
    model$xlevels <- stats::.getXlevels(terms, frame)
    model$names <- colnames(x)
    if (is_told) model else by_design(model, x, all, predicts)
}

# A model whose table has the columns of R's design, 15 digits each, or rounded, where it is asked.
by_design <- function(model, x, all, predicts) {
    has_intercept <- "(Intercept)" %in% colnames(x)
    entries <- matrix(NA_real_, nrow(all), ncol(x))
    entries[model$kept, ] <- x
    if (predicts) {
        asked <- !model$kept & stats::complete.cases(all[-1])
        entries[asked, ] <- frame_entries(model, all[asked, , drop = FALSE])
    }
    is_plain <- colnames(x) %in% names(all)
    if (!is.null(model$digits)) {
        model$design_decimals <- vapply(seq_len(ncol(x)), function(at) {
            if (is_plain[at] || all(x[, at] == round(x[, at]))) NA_real_ else decimals_for(x[, at], model$digits)
        }, 0)
        entries <- rounded(entries, model$design_decimals)
    }
    shown <- which(colnames(x) != "(Intercept)")
    names <- sprintf("<x%d>", shown)
    table <- as.data.frame(stats::setNames(lapply(shown, function(at) entries[, at]), names), optional = TRUE)
    offset <- stats::model.offset(all)
    response <- if (is_plain_name(model$response)) model$response else "<x0>"
    data <- stats::setNames(model$data[model$response], response)
    if (length(names)) data <- cbind(data, table)
    right <- paste(c(if (!has_intercept) "0" else if (!length(names)) "1", paste0("`", names, "`", recycle0 = TRUE)), collapse = " + ")
    model$labels <- c(stats::setNames(model$labels[[model$response]], response), stats::setNames(colnames(x)[shown], names))
    if (!is.null(model$weights)) {
        data[["<x901>"]] <- model$data[[model$weights_column]]
        model$labels[["<x901>"]] <- model$weights
        model$weights_column <- "<x901>"
    }
    if (!is.null(offset)) {
        data[["<x902>"]] <- offset
        model$labels[["<x902>"]] <- "offset"
        right <- paste(right, "+ offset(`<x902>`)")
    }
    model$asked <- paste(if (response == "<x0>") "`<x0>`" else response, "~", right)
    model$response <- response
    model$data <- data
    model$codes <- list()
    model$contrasts <- "treatment"
    model$is_by_design <- TRUE
    numbers <- all(x == round(x))
    model$computed <- c(model$computed, paste0(
        "the design is R's, whose columns the program is handed as they are", if (!numbers) {
            if (is.null(model$digits)) ", of 15 digits" else paste0(", those that are worked out rounded to ", model$digits, " digits of the greatest value")
        }, coding_text(model)
    ))
    model
}

# How the factors of a design are coded, by R's names.
coding_text <- function(model) {
    used <- model$contrasts_used
    if (!length(used)) return(NULL)
    text <- vapply(used, function(it) if (is.character(it)) it else "contrasts of its own", "")
    paste0(": ", paste(names(used), "by", text, collapse = ", "))
}

# What the offsets of a frame come to together.
offset_of <- function(frame) {
    offset <- model.offset(frame)
    if (is.null(offset)) numeric(nrow(frame)) else offset
}

# The columns of a fit's design over a frame.
frame_entries <- function(fit, frame) {
    for (name in names(fit$xlevels)) if (!is.null(frame[[name]])) frame[[name]] <- relevelled(frame[[name]], fit$frame[[name]], name)
    x <- stats::model.matrix(stats::delete.response(fit$terms), frame, contrasts.arg = fit$contrasts_used)
    if (is.null(fit$design_decimals)) x else rounded(x, fit$design_decimals)
}

# A factor with the levels and the contrasts that a fit has; a level that it lacks is an error.
relevelled <- function(column, of_fit, name) {
    if (!is.factor(of_fit)) return(column)
    cells <- as.character(column)
    lost <- setdiff(cells[!is.na(cells)], levels(of_fit))
    if (length(lost)) stop("factor ", name, " has new levels ", paste(lost, collapse = ", "), call. = FALSE)
    factor(cells, levels(of_fit), ordered = is.ordered(of_fit))
}

# The rows that a fit keeps: the design, the response, what its offsets come to together, and the weights.
design_of <- function(fit) {
    if (fit$is_smooth) stop("a fit with a smooth has no design of R's", call. = FALSE)
    if (is.null(fit$frame) || is.null(fit$names)) stop(if (is.null(fit$no_frame)) "no record is kept" else fit$no_frame, call. = FALSE)
    x <- stats::model.matrix(fit$terms, fit$frame, contrasts.arg = fit$contrasts_used)
    if (!is.null(fit$design_decimals)) x <- rounded(x, fit$design_decimals)
    list(x = x, y = as.numeric(model.response(fit$frame)), offset = offset_of(fit$frame), weight = fit$weight)
}

# The design of new records and their offsets; a record with a missing cell has missing entries.
new_design <- function(fit, newdata) {
    newdata <- as.data.frame(newdata)
    terms <- stats::delete.response(fit$terms)
    lost <- Find(function(name) !name %in% names(newdata) && !exists(name, environment(fit$formula)), all.vars(terms))
    if (!is.null(lost)) stop("the new records have no column '", lost, "'", close_to(lost, names(newdata)), call. = FALSE)
    frame <- stats::model.frame(terms, newdata, na.action = na.pass, xlev = fit$xlevels)
    for (name in intersect(names(fit$decimals), names(frame))) frame[[name]] <- rounded(frame[[name]], fit$decimals[[name]])
    offset <- offset_of(frame)
    # An offset beside the formula is worked out of the new records, as predict.lm does.
    if (!is.null(fit$offset_call)) offset <- offset + eval(fit$offset_call, newdata, environment(fit$formula))
    list(x = frame_entries(fit, frame), offset = offset)
}

# The check loss of residuals at a quantile.
check_loss <- function(residuals, tau, weight) sum(weight * residuals * (tau - (residuals < 0)))

# Residuals by the design of R, once they are seen to have the loss of the report.
checked_residuals <- function(fit) {
    design <- design_of(fit)
    beta <- as.matrix(fit$coefficients)
    residuals <- design$y - design$offset - design$x %*% beta
    tau <- fraction_value(fit$tau)
    for (at in seq_along(tau)) {
        loss <- check_loss(residuals[, at], tau[at], design$weight)
        if (abs(loss - fit$loss[at]) > 1e-8 * max(1, abs(fit$loss[at]))) {
            stop("the design of R has the loss ", loss, " and the report ", fit$loss[at], call. = FALSE)
        }
    }
    # The rows of the basis are fitted exactly.
    for (at in seq_along(tau)) residuals[strsplit(fit$segments[[at]]$marks, "")[[1]] == "*", at] <- 0
    fitted <- design$y - residuals
    rownames(residuals) <- rownames(fitted) <- rownames(fit$frame)
    list(residuals = padded(fit, residuals), fitted = padded(fit, fitted))
}

# Values of the kept records; with na.exclude the others have NA in their places.
padded <- function(fit, values) {
    if (fit$na_rule == "na.exclude" && !all(fit$kept)) {
        all <- matrix(NA_real_, length(fit$kept), ncol(values), dimnames = list(rownames(fit$data), colnames(values)))
        all[fit$kept, ] <- values
        values <- all
    }
    if (ncol(values) == 1) values[, 1] else values
}
