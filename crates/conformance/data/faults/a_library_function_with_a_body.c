void abort(void) {
}
