extern void row[];
