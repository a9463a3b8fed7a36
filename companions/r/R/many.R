# Many fits at once, and all quantiles as several ranges side by side.

#' What a call gives for each job, a list of arguments by their names, in the order of the jobs.
#'
#' So many processors work at once where R can fork; the program runs in a process of its own anyway. A job that fails ends all, unless
#' keep_faults = TRUE leaves the condition in its place.
fit_all <- function(jobs, call = rq_exact, cores = parallel::detectCores(), keep_faults = FALSE) {
    run <- function(job) tryCatch(do.call(call, job), error = identity)
    can_fork <- .Platform$OS.type == "unix" && cores > 1
    found <- if (can_fork) parallel::mclapply(jobs, run, mc.cores = cores) else lapply(jobs, run)
    fault <- Find(function(it) inherits(it, "error"), found)
    if (!is.null(fault) && !keep_faults) stop(fault)
    found
}

#' The fit of all quantiles, made as so many ranges side by side and joined: that of rq_exact(.., tau = -1).
#'
#' A cut that falls on a breakpoint leaves open which fit goes on there, and the numbers at a cut are longer than others: where ranges
#' can't be joined, or one ends with status 7, all quantiles are fitted as one.
fit_parts <- function(formula, data = NULL, parts = 2, weights = NULL, contrasts = NULL, pivots = NULL, program = NULL,
                      cores = parallel::detectCores(), subset = NULL, offset = NULL, na.action = NULL, digits = NULL) {
    if (!(parts %in% seq_len(1008))) stop("a range is fitted in 1 to 1008 parts", call. = FALSE)
    call <- match.call()
    fit <- c(list(call = call), model_of_call(call, parent.frame(), formula, data, contrasts, pivots, program, na.action, digits))
    # Multiples of 1/1009 aren't simple fractions, where segments end most often.
    cuts <- c("0", sprintf("%d/1009", (seq_len(parts - 1) * 1009L) %/% as.integer(parts)), "1")
    range_of <- function(lo, hi) report_of(fit, "process", list(lo = lo, hi = hi))
    jobs <- Map(list, cuts[-length(cuts)], cuts[-1])
    reports <- fit_all(jobs, range_of, cores, keep_faults = TRUE)
    failed <- Filter(function(it) inherits(it, "error"), reports)
    others <- Filter(function(it) !identical(it$status, 7L), failed)
    if (length(others)) stop(others[[1]])
    whole <- if (!length(failed)) Reduce(joined, reports)
    if (is.null(whole)) whole <- range_of("0", "1")
    fit_with(fit, parts_of(list(whole), list(all = TRUE)))
}

# Two reports of ranges that meet within a segment of both, as one; NULL where they don't.
joined <- function(left, right) {
    if (is.null(left)) return(NULL)
    last <- left$segments[[length(left$segments)]]
    first <- right$segments[[1]]
    if (last$marks != first$marks) return(NULL)
    last$hi <- first$hi
    last$loss[2] <- first$loss[2]
    last$basic[, "hi"] <- first$basic[rownames(last$basic), "hi"]
    left$segments <- c(left$segments[-length(left$segments)], list(last), right$segments[-1])
    left$pivots <- left$pivots + right$pivots
    left
}
