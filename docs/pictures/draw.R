# Draws the pictures of this folder that R's package quantreg.exact makes, over the program that QUANTREG names:
#
#     QUANTREG=/path/to/quantreg Rscript docs/pictures/draw.R FOLDER
suppressMessages(library(quantreg.exact))
folder <- commandArgs(trailingOnly = TRUE)[1]

save <- function(name, height, draw) {
    png(file.path(folder, paste0(name, ".png")), 1000, height, res = 110)
    draw()
    invisible(dev.off())
}

save("stackloss_in_r", 800, function() plot(rq_exact(stack.loss ~ ., stackloss, tau = -1), alpha = 0.1, trim = 0.1))

data(engel, package = "quantreg")
engel_process <- rq_exact(foodexp ~ income, engel, tau = -1)
save("engel_in_r", 520, function() plot(engel_process, alpha = 0.1, trim = 0.02))
