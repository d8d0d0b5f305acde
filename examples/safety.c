long v_WaterPres = 14L;
long v_Block = 0L;
long v_Reset = 0L;
long v_Pressure = 0L;
long v_Overridden = 0L;
long v_SafetyInjection = 1L;
long o_WaterPres = 14L;
long o_Block = 0L;
long o_Reset = 0L;
long o_Pressure = 0L;
long o_Overridden = 0L;
long o_SafetyInjection = 1L;
void save(void) {
  o_WaterPres = v_WaterPres;
  o_Block = v_Block;
  o_Reset = v_Reset;
  o_Pressure = v_Pressure;
  o_Overridden = v_Overridden;
  o_SafetyInjection = v_SafetyInjection;
}
void step(void) {
  switch (o_Pressure) {
    case 0L:
    if (!(o_WaterPres >= 900L) && v_WaterPres >= 900L) {
      v_Pressure = 1L;
    }
    break;
    case 1L:
    if (!(o_WaterPres >= 1000L) && v_WaterPres >= 1000L) {
      v_Pressure = 2L;
    }
    if (!(o_WaterPres < 900L) && v_WaterPres < 900L) {
      v_Pressure = 0L;
    }
    break;
    case 2L:
    if (!(o_WaterPres < 1000L) && v_WaterPres < 1000L) {
      v_Pressure = 1L;
    }
    break;
  }
  switch (o_Pressure) {
    case 2L:
    if (0L != 0L) {
      v_Overridden = 1L;
    }
    if (o_Pressure == 2L && !(v_Pressure == 2L)) {
      v_Overridden = 0L;
    }
    break;
    case 0L:
    case 1L:
    if (!(o_Block == 1L) && v_Block == 1L && o_Reset == 0L) {
      v_Overridden = 1L;
    }
    if (!(o_Pressure == 2L) && v_Pressure == 2L || !(o_Reset == 1L) && v_Reset == 1L) {
      v_Overridden = 0L;
    }
    break;
  }
  switch (v_Pressure) {
    case 2L:
    case 1L:
    if (0L == 0L) {
      v_SafetyInjection = 0L;
    }
    if (0L != 0L) {
      v_SafetyInjection = 1L;
    }
    break;
    case 0L:
    if (v_Overridden != 0L) {
      v_SafetyInjection = 0L;
    }
    if (!(v_Overridden != 0L)) {
      v_SafetyInjection = 1L;
    }
    break;
  }
}
void set_WaterPres(long a) {
  save();
  v_WaterPres = a;
  step();
}
void set_Block(long a) {
  save();
  v_Block = a;
  step();
}
void set_Reset(long a) {
  save();
  v_Reset = a;
  step();
}
