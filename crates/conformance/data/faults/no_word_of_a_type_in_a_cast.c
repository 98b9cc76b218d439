int n = (const)3;
