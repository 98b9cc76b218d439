typedef int step(int);
step *ways[2], all[2];
