main(){cannon(0,250);cannon(270,700);drive(45,100);while(1);}
