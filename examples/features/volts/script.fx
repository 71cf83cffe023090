{ code in [0,4095] -> 3.3 * code / 4096 in ? }
