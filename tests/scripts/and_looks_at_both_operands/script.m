a = false & NaN
