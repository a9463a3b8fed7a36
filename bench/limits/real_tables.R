# Writes each data frame of the R packages at hand as CSV: Rscript real_tables.R FOLDER [MOST RECORDS]
words <- commandArgs(trailingOnly = TRUE)
most <- if (length(words) > 1) as.integer(words[2]) else 16384L
for (package in sort(unique(rownames(installed.packages())))) {
    items <- suppressWarnings(data(package = package)$results[, "Item"])
    for (item in unique(sub(" .*", "", items))) {
        found <- new.env()
        tryCatch(suppressWarnings(data(list = item, package = package, envir = found)), error = function(fault) NULL)
        table <- found[[item]]
        if (!is.data.frame(table) || nrow(table) < 8 || nrow(table) > most || ncol(table) < 2) next
        file <- file.path(words[1], paste0(package, "-", item, ".csv"))
        tryCatch(utils::write.csv(as.data.frame(table), file, row.names = FALSE), error = function(fault) unlink(file))
    }
}
