#pragma once "
int work(int n) {
  return *n;
}
