impl<T> From<Failed<T>> for Memory {}
