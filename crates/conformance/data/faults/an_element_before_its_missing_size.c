void rows[];
